"""Document 01, 'Table of 32': the plain book; a session has its suite by order 2 of document 02."""


class Book:
    def __init__(self):
        self.row = []  # (axle, identifier, ems, suite, secret), oldest first

    def _of(self, axle):
        return [s for s in self.row if s[0] == axle]

    def _find(self, axle, identifier):
        return next((s for s in self.row if s[:2] == (axle, identifier)), None)

    @staticmethod
    def _fault(axle, identifier=b"\x00"):
        return 0 if 1 <= axle <= 6 and 1 <= len(identifier) <= 32 else 11

    def store(self, axle, identifier, ems, suite, secret):
        """number"""
        if self._fault(axle, identifier):
            return 11
        if len(secret) != 48:
            return 10
        struck = self._find(axle, identifier)
        if struck is None:
            own = self._of(axle)
            if len(own) == 8:
                struck = own[0]
            elif len(self.row) < 32:
                struck = None
            elif 4 <= len(own) <= 7:
                struck = own[0]
            else:
                most = max(range(1, 7), key=lambda a: (len(self._of(a)), -a))
                struck = self._of(most)[0]
        if struck is not None:
            self.row.remove(struck)
        self.row.append((axle, identifier, ems, suite, secret))
        return 0

    def look_up(self, axle, identifier, out):
        """(number, found, ems, suite, out afterwards)"""
        if self._fault(axle, identifier):
            return 11, False, False, 0, out
        s = self._find(axle, identifier)
        if s is None:
            return 0, False, False, 0, out
        if len(out) < 48:
            return 10, False, False, 0, out
        return 0, True, s[2], s[3], s[4] + out[48:]

    def withdraw(self, axle, identifier):
        """(number, withdrawn)"""
        if self._fault(axle, identifier):
            return 11, False
        s = self._find(axle, identifier)
        if s is not None:
            self.row.remove(s)
        return 0, s is not None

    def held(self, axle):
        """(number, count)"""
        if self._fault(axle):
            return 11, 0
        return 0, len(self._of(axle))

    def clear(self):
        self.row = []
        return 0

    def known(self, axle, identifier):
        """None, or whether the session has EMS, and its suite."""
        s = self._find(axle, identifier)
        return None if s is None else s[2:4]
