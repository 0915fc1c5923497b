"""The exceptions of Python's database specification, and which of them a refusal becomes."""

# What a code says (docs/REFUSALS.md has them whole), and its class.
MEANINGS = {
    "0A000": "a form of the language that is not built",
    "21000": "a scalar subquery has more than one row",
    "22001": "a text is too long",
    "22003": "a number is outside 64 bits",
    "22012": "division by zero",
    "23000": "a constraint is violated",
    "24000": "a cursor is in the wrong state",
    "25000": "a change in a transaction that is READ ONLY, or SET TRANSACTION in a transaction",
    "40001": "another session has changed; the transaction was rolled back, and may be tried again",
    "42000": "the text, a name, a type or a group is wrong",
    "X0001": "want of memory",
    "X0002": "the file, the input or the output refused",
    "X0003": "a limit was passed",
    "X0004": "the file is damaged",
}


class Warning(Exception):  # noqa: A001 (the specification's name)
    """Never raised: the engine has no warnings."""


class Error(Exception):
    """The base of all errors.

    `code` is that of a refusal, as the program printed it, and `reason` the word or name behind it;
    both are None where nothing was refused. `is_retryable` says that the transaction was rolled
    back because of another one, and may be tried again from its first statement.
    """

    def __init__(self, message, code=None, reason=None):
        super().__init__(message)
        self.code = code
        self.reason = reason
        self.is_retryable = code == "40001"

    def copy(self):
        """The same error, to be raised once more."""
        return type(self)(self.args[0], self.code, self.reason)


class InterfaceError(Error):
    """The client was used in a way that it does not allow: a cursor that is closed, say."""


class DatabaseError(Error):
    """The base of what the database or its program raises."""


class DataError(DatabaseError):
    """A value is out of range, too long, or none that the language has."""


class OperationalError(DatabaseError):
    """A serialization failure, a limit, want of memory, the file, or the program itself."""


class IntegrityError(DatabaseError):
    """A constraint is violated; `reason` is its name."""


class InternalError(DatabaseError):
    """A cursor or a transaction is in the wrong state, or the program broke its protocol."""


class ProgrammingError(DatabaseError):
    """The text of a statement is wrong, or its parameters do not fit it."""


class NotSupportedError(DatabaseError):
    """A form of the language that is not built."""


CLASSES = {
    "0A": NotSupportedError,
    "21": ProgrammingError,
    "22": DataError,
    "23": IntegrityError,
    "24": InternalError,
    "25": InternalError,
    "40": OperationalError,
    "42": ProgrammingError,
    "X0": OperationalError,
}


def error_of(code, reason):
    """The exception for a refusal, as it was printed."""
    printed = code if reason is None else code + " " + reason
    message = "%s: %s" % (printed, MEANINGS.get(code, "a refusal that this client does not know"))
    return CLASSES.get(code[:2], DatabaseError)(message, code, reason)


def as_attributes(cls):
    """Gives a class each exception as an attribute, under its name."""
    for error in (Warning, Error, InterfaceError, DatabaseError, *dict.fromkeys(CLASSES.values())):
        setattr(cls, error.__name__, error)
    return cls
