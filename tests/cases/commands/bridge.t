`./forth bridge`: addresses that are devices, other addresses as before, wrong maps. tests/cases/sessions/bridge.txt has a device that fails.

  $ . "$TESTDIR/lib.sh"
  $ cat > plant.py << 'END'
  > bytes_of = {}
  > def board(address, byte=None):
  >     if byte is not None: bytes_of[address] = byte
  >     return bytes_of.get(address, 7)
  > DEVICES = {"board": board, "broken": board}
  > END

Bytes and cells of a map's addresses; a cell's low byte comes first.

  $ printf '\\ of the trial\nC0E0-C0E3 board # four\n\nFFF0 broken\n' > good.map
  $ forth bridge good.map plant.py -e 'HEX C0E0 C@ . 1FF C0E0 C! C0E0 C@ . 1234 C0E2 ! C0E2 C@ . C0E3 C@ . C0E2 @ . 5678 PAD ! PAD @ . PAD C@ .' < /dev/null
  7 FF 34 12 1234 5678 78  (no-eol)
  $ forth bridge good.map plant.py -e 'HEX C0F0 PORT@' < /dev/null 2>&1 | head -n 1; echo "${PIPESTATUS[0]}"
  the map has no device at C0F0 (fault 17)
  3

Wrong maps, and a map alone:

  $ wrong() { printf "$1" > w.map; forth bridge w.map plant.py -e '1 .' < /dev/null; }
  $ wrong 'C0E0 board\nC0E1\n'
  forth: w.map:2: a line of a map has addresses in hexadecimal and the name of a device, as in: C0E0-C0E2 adc
  [1]
  $ wrong 'C0E0-C0E2 board\n# x\nC0E2 broken\n'
  forth: w.map:3: C0E2 is an address of board already
  [1]
  $ wrong 'C0E2-C0E0 board\n'
  forth: w.map:1: C0E0 is before C0E2
  [1]
  $ wrong 'C0E0 board\nC0E1 lamp\n'
  forth: cannot use plant.py: it has no device lamp, which the map names; DEVICES has a function for each name
  [1]
  $ forth bridge good.map -e '1 .' < /dev/null 2>&1 | head -n 1; echo "${PIPESTATUS[0]}"
  forth: bridge needs the devices: a file of Python, or the board of --target
  2
