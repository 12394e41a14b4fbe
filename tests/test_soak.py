"""A short soak in the gate; `tests/soak.py` runs as long as one likes."""

from tests.soak import soak

# what each call is answered in it, at the least: every one gets past its first test
SEEN = {
    "axle_complete": {0, 7},
    "axle_decide_client": {0, 1, 11, 12},
    "axle_decide_server": {0, 1, 5, 6, 9, 11},
    "axle_extended_master_secret": {0, 10},
    "axle_hash384_absorb": {0, 10},
    "axle_hash_absorb": {0, 10},
    "axle_log_accept": {0, 1, 7, 10},
    "axle_log_expected_finished": {0, 7},
    "axle_log_feed": {0, 1, 7, 10},
    "axle_log_finish": {0, 1, 7, 8, 10},
    "axle_log_session_hash": {0, 7},
    "axle_master_secret": {0, 10},
    "axle_read_client_hello": {0, 1},
    "axle_read_server_hello": {0, 1},
    "axle_table_held": {0, 11},
    "axle_table_look_up": {0, 11},
    "axle_table_store": {0, 10, 11},
    "axle_table_withdraw": {0, 11},
    "axle_write_client_hello": {0, 1, 2, 3, 10},
    "axle_write_server_hello": {0, 1, 2, 3, 10},
}


def test_a_short_soak():
    made, numbers = soak(600, 1, calls=36_000)
    for name, least in SEEN.items():
        assert least <= numbers[name], (name, least - numbers[name])
    return f"{made} calls"
