"""Runs the functions test_* of a file as pytest does, where pytest isn't installed."""
import runpy
import sys
import traceback

names = runpy.run_path(sys.argv[1])
tests = [(name, it) for name, it in names.items() if name.startswith("test_")]
failed = 0
for name, test in tests:
    try:
        test()
        print(f"{name} passed")
    except Exception:
        failed += 1
        traceback.print_exc()
        print(f"{name} FAILED")
print(f"{len(tests) - failed} passed, {failed} failed")
sys.exit(failed > 0)
