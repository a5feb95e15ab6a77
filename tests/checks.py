"""What the Python tests share: a check prints 'ok: WORDS' or 'FAILED: WORDS: what is wrong', and `ended` the last line, 'N passed, M failed'. The
gate (.ci/run) reads these lines."""

passed = failed = 0


def check(words, wrong):
    """`wrong` lists what is wrong: nothing if all is well."""
    global passed, failed
    if wrong:
        failed += 1
        print(f"FAILED: {words}: {'; '.join(map(str, wrong))}", flush=True)
    else:
        passed += 1
        print(f"ok: {words}", flush=True)


def ended():
    """The exit status. A test that has checked nothing has failed."""
    print(f"{passed} passed, {failed} failed")
    return 0 if failed == 0 and passed > 0 else 1
