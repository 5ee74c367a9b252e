\ main.fs: a data logger; it obeys lines until `quit`

REQUIRE later.fs
REQUIRE commands.fs

CREATE LINE-BUF 80 ALLOT
: MAIN ( -- )
  OPEN-LOG IS-DONE OFF
  BEGIN LINE-BUF DUP 80 ACCEPT TAKE-LINE SAVE-BUFFERS IS-DONE @ UNTIL ;
