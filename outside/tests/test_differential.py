"""The proved programs against the reference: `differential.py` as it stands, with its defaults."""

import sys
from pathlib import Path

sys.dont_write_bytecode = True
sys.path.insert(0, str(Path(__file__).resolve().parent.parent))

import differential

if __name__ == "__main__":
    sys.exit(differential.main())
