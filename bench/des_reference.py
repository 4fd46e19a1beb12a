"""DES, its chains and its sealing by the package `cryptography`, an implementation that is not ours."""

from cryptography.hazmat.primitives.ciphers import Cipher, modes

try:
    from cryptography.hazmat.decrepit.ciphers.algorithms import TripleDES
except ImportError:
    from cryptography.hazmat.primitives.ciphers.algorithms import TripleDES


def context(key, mode, encrypt):
    # Triple DES with three equal keys is DES.
    cipher = Cipher(TripleDES(key * 3), mode)
    return cipher.encryptor() if encrypt else cipher.decryptor()


def chain(key, iv, text):
    return context(key, modes.CBC(iv), True).update(text)


def unchain(key, iv, text):
    return context(key, modes.CBC(iv), False).update(text)


def seal(main, check, nonce, plain):
    """The nonce, and in one chain the plain text and its check block."""
    first = context(check, modes.ECB(), True).update(nonce)
    last = chain(check, first, plain)[-8:]
    return nonce + chain(main, nonce, plain + last)


def unseal(main, check, text):
    """The nonce and the plain text, or None where the check block is another."""
    nonce, body = text[:8], unchain(main, text[:8], text[8:])
    if seal(main, check, nonce, body[:-8]) == text:
        return nonce, body[:-8]
    return None
