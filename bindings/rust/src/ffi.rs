//! The C face as `include/axle_gateway.h` declares it. Every struct is plain bytes and numbers, so every value is legal.

use crate::wiped::Plain;

#[repr(C)]
#[derive(Clone, Copy)]
pub struct Refusal {
    pub number: u8,
    pub level: u8,
    pub code: u8,
    pub place: usize,
}

#[repr(C)]
#[derive(Clone, Copy)]
pub struct Hash {
    pub state: [u32; 8],
    pub tail: [u8; 64],
    pub length: u64,
}

#[repr(C)]
#[derive(Clone, Copy)]
pub struct Absorbed {
    pub refusal: Refusal,
    pub hash: Hash,
}

#[repr(C)]
#[derive(Clone, Copy)]
pub struct Digest {
    pub bytes: [u8; 32],
}

#[repr(C)]
#[derive(Clone, Copy)]
pub struct Digested {
    pub refusal: Refusal,
    pub digest: [u8; 32],
}

#[repr(C)]
#[derive(Clone, Copy)]
pub struct Hash384 {
    pub state: [u64; 8],
    pub tail: [u8; 128],
    pub length: u64,
}

#[repr(C)]
#[derive(Clone, Copy)]
pub struct Absorbed384 {
    pub refusal: Refusal,
    pub hash: Hash384,
}

#[repr(C)]
#[derive(Clone, Copy)]
pub struct Digest384 {
    pub bytes: [u8; 48],
}

#[repr(C)]
#[derive(Clone, Copy)]
pub struct Digested384 {
    pub refusal: Refusal,
    pub digest: [u8; 48],
}

#[repr(C)]
#[derive(Clone, Copy)]
pub struct Tagged {
    pub refusal: Refusal,
    pub tag: [u8; 32],
}

#[repr(C)]
#[derive(Clone, Copy)]
pub struct Tagged384 {
    pub refusal: Refusal,
    pub tag: [u8; 48],
}

#[repr(C)]
#[derive(Clone, Copy)]
pub struct Part {
    pub at: usize,
    pub length: usize,
}

#[repr(C)]
#[derive(Clone, Copy)]
pub struct Extensions {
    pub block: u8,
    pub list: Part,
    pub indicated: u8,
    pub indication: Part,
    pub ems: u8,
    pub others: u8,
}

#[repr(C)]
#[derive(Clone, Copy)]
pub struct ClientHello {
    pub version: u16,
    pub random: Part,
    pub identifier: Part,
    pub suites: Part,
    pub methods: Part,
    pub signal: u8,
    pub extensions: Extensions,
}

#[repr(C)]
#[derive(Clone, Copy)]
pub struct ServerHello {
    pub version: u16,
    pub random: Part,
    pub identifier: Part,
    pub suite: u16,
    pub compression: u8,
    pub extensions: Extensions,
}

#[repr(C)]
#[derive(Clone, Copy)]
pub struct ClientReading {
    pub refusal: Refusal,
    pub hello: ClientHello,
}

#[repr(C)]
#[derive(Clone, Copy)]
pub struct ServerReading {
    pub refusal: Refusal,
    pub hello: ServerHello,
}

#[repr(C)]
#[derive(Clone, Copy)]
pub struct Extension {
    pub found: u8,
    pub r#type: u16,
    pub data: Part,
    pub next: usize,
}

#[repr(C)]
#[derive(Clone, Copy)]
pub struct Written {
    pub refusal: Refusal,
    pub length: usize,
}

#[repr(C)]
#[derive(Clone, Copy)]
pub struct Row {
    pub ems: u8,
    pub size: u8,
    pub suite: [u8; 2],
    pub identifier: [u8; 32],
    pub secret: [u8; 48],
}

#[repr(C)]
#[derive(Clone, Copy)]
pub struct Queue {
    pub rows: [Row; 8],
    pub held: u8,
}

#[repr(C)]
#[derive(Clone, Copy)]
pub struct Table {
    pub queues: [Queue; 6],
}

#[repr(C)]
#[derive(Clone, Copy)]
pub struct Stored {
    pub refusal: Refusal,
    pub table: Table,
}

#[repr(C)]
#[derive(Clone, Copy)]
pub struct Looked {
    pub refusal: Refusal,
    pub found: u8,
    pub ems: u8,
    pub suite: u16,
}

#[repr(C)]
#[derive(Clone, Copy)]
pub struct Withdrawn {
    pub refusal: Refusal,
    pub withdrawn: u8,
    pub table: Table,
}

#[repr(C)]
#[derive(Clone, Copy)]
pub struct Held {
    pub refusal: Refusal,
    pub count: u8,
}

#[repr(C)]
#[derive(Clone, Copy)]
pub struct Cleared {
    pub refusal: Refusal,
    pub table: Table,
}

#[repr(C)]
#[derive(Clone, Copy)]
pub struct Transcript {
    pub sha256: Hash,
    pub sha384: Hash384,
    pub choice: u8,
}

#[repr(C)]
#[derive(Clone, Copy)]
pub struct Log {
    pub hash: Transcript,
    pub place: u8,
    pub session: [u8; 48],
    pub client: [u8; 12],
    pub server: [u8; 12],
    pub kind: u8,
    pub next: u8,
    pub sha384: u8,
    pub left: u16,
}

#[repr(C)]
#[derive(Clone, Copy)]
pub struct Told {
    pub resumes: u8,
    pub sha384: u8,
}

#[repr(C)]
#[derive(Clone, Copy)]
pub struct Accepted {
    pub refusal: Refusal,
    pub log: Log,
}

#[repr(C)]
#[derive(Clone, Copy)]
pub struct Blocks {
    pub sha256: usize,
    pub sha384: usize,
}

#[repr(C)]
#[derive(Clone, Copy)]
pub struct Fed {
    pub refusal: Refusal,
    pub log: Log,
    pub taken: usize,
    pub blocks: Blocks,
}

#[repr(C)]
#[derive(Clone, Copy)]
pub struct SessionHash {
    pub refusal: Refusal,
    pub length: u8,
    pub hash: [u8; 48],
}

#[repr(C)]
#[derive(Clone, Copy)]
pub struct Expected {
    pub refusal: Refusal,
    pub value: [u8; 12],
}

#[repr(C)]
#[derive(Clone, Copy)]
pub struct Connection {
    pub completed: u8,
    pub indication: u8,
    pub barred: u8,
    pub client: [u8; 12],
    pub server: [u8; 12],
}

#[repr(C)]
#[derive(Clone, Copy)]
pub struct Switches {
    pub indication_required: u8,
    pub legacy_full: u8,
    pub legacy_resumption: u8,
}

#[repr(C)]
#[derive(Clone, Copy)]
pub struct Decision {
    pub refusal: Refusal,
    pub resumes: u8,
    pub ems: u8,
    pub indication: u8,
    pub bar: u8,
    pub bars_export: u8,
    pub bars_verify_data: u8,
    pub reply_length: usize,
}

macro_rules! plain {
    ($($name:ident),*) => {
        // SAFETY: structs of bytes and numbers.
        $(unsafe impl Plain for $name {})*
    };
}

plain!(Hash, Absorbed, Hash384, Absorbed384, Table, Stored, Withdrawn, Log, Accepted, Fed, Connection);

extern "C" {
    pub fn axle_refusal(number: u8) -> Refusal;

    pub fn axle_hash_fresh() -> Hash;
    pub fn axle_hash_absorb(hash: Hash, bytes: *const u8, length: usize) -> Absorbed;
    pub fn axle_hash_digest(hash: Hash) -> Digest;
    pub fn axle_sha256(message: *const u8, length: usize) -> Digested;
    pub fn axle_hash384_fresh() -> Hash384;
    pub fn axle_hash384_absorb(hash: Hash384, bytes: *const u8, length: usize) -> Absorbed384;
    pub fn axle_hash384_digest(hash: Hash384) -> Digest384;
    pub fn axle_sha384(message: *const u8, length: usize) -> Digested384;

    pub fn axle_hmac(key: *const u8, key_length: usize, message: *const u8, message_length: usize) -> Tagged;
    pub fn axle_hmac_sha384(key: *const u8, key_length: usize, message: *const u8, message_length: usize) -> Tagged384;
    pub fn axle_extended_master_secret(
        sha384: u8,
        pre_master: *const u8,
        pre_master_length: usize,
        session_hash: *const u8,
        session_hash_length: usize,
        out: *mut u8,
        out_length: usize,
    ) -> Refusal;
    pub fn axle_master_secret(
        sha384: u8,
        pre_master: *const u8,
        pre_master_length: usize,
        randoms: *const u8,
        randoms_length: usize,
        out: *mut u8,
        out_length: usize,
    ) -> Refusal;

    pub fn axle_read_client_hello(message: *const u8, length: usize) -> ClientReading;
    pub fn axle_read_server_hello(message: *const u8, length: usize) -> ServerReading;
    pub fn axle_next_extension(message: *const u8, length: usize, at: usize) -> Extension;

    pub fn axle_write_client_hello(
        version: u16,
        random: *const u8,
        random_length: usize,
        identifier: *const u8,
        identifier_length: usize,
        suites: *const u8,
        suites_length: usize,
        methods: *const u8,
        methods_length: usize,
        block: u8,
        types: *const u16,
        types_length: usize,
        lengths: *const u16,
        lengths_length: usize,
        data: *const u8,
        data_length: usize,
        out: *mut u8,
        out_length: usize,
    ) -> Written;
    pub fn axle_write_server_hello(
        version: u16,
        random: *const u8,
        random_length: usize,
        identifier: *const u8,
        identifier_length: usize,
        suite: u16,
        compression: u8,
        block: u8,
        types: *const u16,
        types_length: usize,
        lengths: *const u16,
        lengths_length: usize,
        data: *const u8,
        data_length: usize,
        out: *mut u8,
        out_length: usize,
    ) -> Written;

    pub fn axle_table_fresh() -> Table;
    pub fn axle_table_store(
        table: Table,
        axle: u8,
        identifier: *const u8,
        identifier_length: usize,
        ems: u8,
        suite: u16,
        secret: *const u8,
        secret_length: usize,
    ) -> Stored;
    pub fn axle_table_look_up(
        table: Table,
        axle: u8,
        identifier: *const u8,
        identifier_length: usize,
        out: *mut u8,
        out_length: usize,
    ) -> Looked;
    pub fn axle_table_withdraw(table: Table, axle: u8, identifier: *const u8, identifier_length: usize) -> Withdrawn;
    pub fn axle_table_held(table: Table, axle: u8) -> Held;
    pub fn axle_table_clear(table: Table) -> Cleared;

    pub fn axle_connection_fresh() -> Connection;
    pub fn axle_decide_server(
        message: *const u8,
        length: usize,
        axle: u8,
        table: Table,
        connection: Connection,
        switches: Switches,
        out: *mut u8,
        out_length: usize,
    ) -> Decision;
    pub fn axle_decide_client(
        message: *const u8,
        length: usize,
        offered: *const u8,
        offered_length: usize,
        session: u8,
        identifier: *const u8,
        identifier_length: usize,
        ems: u8,
        suite: u16,
        connection: Connection,
        switches: Switches,
    ) -> Decision;

    pub fn axle_log_fresh() -> Log;
    pub fn axle_log_accept(log: Log, message: *const u8, length: usize, told: Told) -> Accepted;
    pub fn axle_log_feed(log: Log, rest: *const u8, length: usize, allowance: usize, told: Told) -> Fed;
    pub fn axle_log_session_hash(log: Log) -> SessionHash;
    pub fn axle_log_finish(
        log: Log,
        secret: *const u8,
        secret_length: usize,
        message: *const u8,
        message_length: usize,
    ) -> Accepted;
    pub fn axle_log_expected_finished(log: Log, secret: *const u8, secret_length: usize) -> Expected;

    pub fn axle_complete(connection: *mut Connection, log: Log, decision: Decision) -> Refusal;
}
