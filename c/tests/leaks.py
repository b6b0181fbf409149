"""The branches and addresses that depend on secrets, which valgrind's memcheck finds."""

import re

from harness import IN_THREADS, LIBARGON2
from harness import built, need, need_file, need_host, run, sources_for
from tests.samples import sample

# The functions that may branch on secrets or read at addresses that depend on them, in each call of
# tests/jobs.c for tags of a kind: Argon2id's second half and scrypt's table depend on them by
# definition.
SECRET_CALLS = {
    ("rigzumal_argon2, small", "i"): [],
    ("rigzumal_argon2, small", "old"): [],
    ("rigzumal_argon2, small", "id"): [
        "cred_argon::argon::",
        "cred_argon::block::",
        "cred_argon::segment::",
    ],
    ("rigzumal_scrypt, small", "i"): ["cred_scrypt::romix::", "cred_scrypt::key_derivation::"],
    ("rigzumal_argon2_write", "i"): [],
    ("rigzumal_record", "i"): [],
    ("rigzumal_record_with_secret", "i"): [],
    ("rigzumal_record_from", "i"): [],
    ("rigzumal_argon2_threads", "i"): [],
    ("rigzumal_record_threads", "i"): [],
    ("rigzumal_step of an enrol", "i"): [],
    ("argon2_hash, a string of a long tag", "i"): [],
    # A text is cut at its '$', and its letters are compared with base64's.
    ("rigzumal_record_fault", "i"): [
        "strlen",
        "cred_phc::pieces::Pieces::",
        "cred_phc::pieces::cut",
        "cred_phc::pieces::first",
        "cred_phc::parse::",
        "cred_base64::codec::decode",
        "cred_base64::codec::are_letters",
    ],
}

# Calls that judge a tag, right or wrong in its first byte or its last: how often they look at the
# verdict, the one place of the one jump by it, which those of C may do without, and who in C looks
# at its number, where the proved code has made it without a jump: it is all that C sees of the
# tags.
JUDGEMENTS = {
    "rigzumal_check": (1, "cred_check"),
    "rigzumal_check_threads": (1, "cred_check_end", "note_fault"),
    "argon2_verify": (4, "cred_check_end", "note_fault", "number_of", "argon2_verify"),
    "rigzumal_step of a verify": (1, "cred_step"),
    "rigzumal_step of a change": (1, "cred_step"),
    "rigzumal_step of an upgrade": (1, "cred_step"),
    "rigzumal_step of a removal": (1, "cred_step"),
    "rigzumal_check_with_secret": (1, "(rigzumal_)?check(_with_secret(_threads)?)?"),
    "rigzumal_check_from": (1, "(rigzumal_)?check(_from)?"),
    "rigzumal_step_from of a verify": (
        *(3, "(rigzumal_)?check(_from)?"),
        *("step_at_record", "rigzumal_step_from"),
    ),
    "argon2_verify of a long tag": (1, "argon2_verify_ctx|verify"),
}


JOBS = ["-O2", "tests/jobs.c", *LIBARGON2]


def errors_of(log):
    """The kind, the address and the function of each error of valgrind's memcheck."""
    form = r"(Conditional jump|Use of uninitialised value|Syscall param|Invalid|Jump to).*\n"
    return re.findall(form + r".* at (0x\w+): (.*) \(", log)


def errors_in(program, name, kind="i", *looks):
    """The errors of one call, as many as valgrind counts."""
    log = run("valgrind", "--error-limit=no", program, name, kind, *looks)
    errors = errors_of(log)
    if f"from {len(errors)} contexts" not in log:
        raise AssertionError(f"{name}: {errors}\n{log[-2000:]}")
    return errors


def check_leaks(build):
    """Tests that in a build no branch and no address depends on a secret, except by design: in a
    sample of the calls."""
    need("valgrind")
    need_host()
    need_file("/usr/include/valgrind/memcheck.h")
    program = built("secrets", [*JOBS, IN_THREADS], sources_for(build))
    for (name, kind), allowed in sample([*SECRET_CALLS.items()]):
        errors = errors_in(program, name, kind)
        wrong = [it for it in errors if not it[2].startswith(tuple(allowed))]
        if wrong:
            raise AssertionError(f"{name}: {wrong}")
    for name, (looks, place, *lookers) in sample([*JUDGEMENTS.items()]):
        errors = errors_in(program, name, "i", looks)
        jumps = {it for it in errors if it[2] not in lookers}
        if len(jumps) > 1 or not all(re.fullmatch(place, it[2]) for it in jumps):
            raise AssertionError(f"{name}: {errors}")
    if not errors_in(program, "leaking_check"):
        raise AssertionError("a comparison that leaks is not seen")
