"""The example of a booking, as README calls it."""
import subprocess

from service import PATIENCE, check, equal


def test_the_example_ends_by_itself_with_its_journal_sound(setting):
    done = subprocess.run(
        [f"{setting.root}/examples/booking/run", setting.program], capture_output=True, timeout=PATIENCE, check=False
    )
    output = done.stdout.decode()
    equal("its status", (done.returncode, done.stderr), (0, b""))
    for text in ("is Closed", "is Cancelled", "is FailedToClose", "\naction 1 * Closed\n", "\nsound entries "):
        check(f"it prints {output}, without {text!r}", text in output)
