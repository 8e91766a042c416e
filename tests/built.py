"""Where make puts its programs. Those that link the library stand in LINKED: in build/, or,
where make was told a TARGET, which it hands on in the environment, in build/TARGET. The
others stand in build/, whatever the target."""
import os

TARGET = os.environ.get("TARGET", "")
LINKED = f"build/{TARGET}" if TARGET else "build"
