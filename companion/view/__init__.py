"""The parts of hardview. Each works on what hardcc prints and on the files that it writes, and decides nothing about windows."""
