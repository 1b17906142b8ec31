"""python3 tools/view WORD..: what `./mvrlu view WORD..` does."""
import pathlib
import sys

sys.dont_write_bytecode = True
sys.path.insert(0, str(pathlib.Path(__file__).resolve().parent.parent))

from view.command import main  # noqa: E402

sys.exit(main(sys.argv[1:]))
