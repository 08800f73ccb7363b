"""Passwords and the `auth` lines of them."""
import hashlib
import secrets
import string

LETTERS = string.ascii_letters + string.digits
SALT_LENGTH, PASSWORD_BYTES = 16, 12


def new_salt() -> str:
    return "".join(secrets.choice(LETTERS) for _ in range(SALT_LENGTH))


def new_password() -> str:
    """A password of 96 random bits, in letters and digits that are not taken for one another."""
    import base64

    text = base64.b32encode(secrets.token_bytes(PASSWORD_BYTES)).decode().rstrip("=").lower()
    return "-".join(text[place : place + 5] for place in range(0, len(text), 5))


def password_line(password: str) -> bytes:
    """The line of a file that has a password, as a submission takes it."""
    return b"password: " + password.encode() + b"\n"


def password_in(text: bytes) -> str:
    """The password of such a file; nothing where it has none, or several."""
    found = [line[10:] for line in text.splitlines() if line.startswith(b"password: ")]
    return found[0].decode("ascii", "replace") if len(found) == 1 else ""


def auth_of(secret: bytes, salt: str) -> str:
    """The value of `auth` for a password."""
    return f"SHA256-PW {salt}:{hashlib.sha256(salt.encode() + secret).hexdigest()}"


def fits(auth: bytes, secret: bytes) -> bool:
    """Whether a password fits the value of an `auth` that lets anybody in (`grammar.is_usable`)."""
    salt, _, digest = auth.split()[1].partition(b":")
    return hashlib.sha256(salt + secret).hexdigest().encode() == digest.lower()
