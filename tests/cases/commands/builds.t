What `build` makes of screens: an image, or a refusal with its place. The language is in docs/PROGRAM.md ("The language of `build`"), the cells of a
new image and what each word compiles in docs/MACHINE.md and crates/image_builder. All values are worked out by hand: a header takes 7 bytes and its
name, a cell 2, a number in a body 4, each jump of a structure 4.

  $ . "$TESTDIR/lib.sh"

Screens from 1 on, after a blank one: the text of each is at its front, after `>` at its end.

  $ write() {
  >   printf %1024s ''
  >   local text
  >   for text; do case $text in '>'*) printf %1024s "${text#>}" ;; *) printf %-1024s "$text" ;; esac; done
  > }

The image of screens FROM to TO of own.blk; if there is none, the status is 1 and no file is left.

  $ builds() {
  >   rm -f own.img
  >   forth83 build own.blk "$1" "$2" own.img || [ "$? $(echo own.im*)" = '1 own.im*' ] || echo "status $?, and" own.im*
  > }
  $ cell() { od -An -tu2 --endian=little -j $((16 + $1)) -N 2 own.img | tr -d ' '; }

Each line is `SCREENS | ANSWER`, with `~` between two screens, `{names}` and `{open}` for what is defined here. They are built, from the first screen to
the last one or from FROM to TO. Printed is what is answered otherwise, and how many lines there were. `AT=CELL` is a cell of the image.

  $ names='5 PRIM E 6 PRIM L 7 PRIM B 8 PRIM Q 9 PRIM D 10 PRIM O 11 PRIM P 16 PRIM S 17 PRIM A 18 PRIM X 19 PRIM C 32 PRIM I IMMEDIATE BOOT E'
  $ open=$(printf 'BEGIN %.0s' {1..64})
  $ answers() {
  >   local line text got word count=0 screens
  >   while IFS= read -r line; do
  >     text=${line% | *} text=${text/'{names}'/$names} text=${text/'{open}'/$open}
  >     IFS='~' read -ra screens <<< "$text~"
  >     write "${screens[@]}" > own.blk
  >     got=$(builds "${1-1}" "${2-${#screens[@]}}")
  >     for word in ${line##* | }; do case $word in *=*) got+=" ${word%=*}=$(cell "${word%=*}")" ;; esac; done
  >     [ "$got" = "${line##* | }" ] || echo "$line, but $got"
  >     count=$((count + 1))
  >   done
  >   echo "$count lines"
  > }

A whole image: its file has a header, the cells of the system that are not 0, and the words EXIT, BYE and GO.

  $ write '5 PRIM EXIT 23 PRIM BYE : GO BYE ; BOOT GO' > own.blk
  $ builds 1 1
  size 290 entry 284
  $ head -c 16 own.img | od -An -c
     F   T   H   8   3   I   M   G 002  \0 004  \0 034 001   " 001
  $ for at in {0..254..2}; do [ "$(cell $at)" = 0 ] || echo "$at=$(cell $at)"; done | paste -sd' '
  18=10 28=290 30=279 32=42 34=42 44=258 46=269 48=279 52=42 54=290 74=265 110=275
  $ tail -c +273 own.img | od -An -tx1
   01 00 00 00 84 45 58 49 54 05 00 01 00 00 00 83
   42 59 45 17 00 01 00 00 00 82 47 4f 01 00 13 01
   09 01
  $ forth83 run own.img < /dev/null

Sizes, entries and cells: choices; numbers of two cells; comments; vocabularies; loops.

  $ answers << 'END'
  > 5 PRIM EXIT 6 PRIM (LIT) 7 PRIM BRANCH 8 PRIM ?BRANCH 23 PRIM BYE 32 PRIM DUP : Z DUP IF 1 ELSE -1 THEN ; : GO 0 Z BYE ; BOOT GO | size 373 entry 361 30=356 334=324 336=304 338=348 340=277 342=1 344=290 346=352 348=277 350=65535 352=265
  > 65541 PRIM X 65536 ALLOT BOOT X | size 264 entry 262 262=5
  > 5 PRIM EXIT 150 PRIM CREATE ( x ) : A CREATE ( y ) ; BOOT A | size 292 entry 286
  > 5 PRIM EXIT 23 PRIM BYE VOCABULARY V V DEFINITIONS : GO BYE ; BOOT GO | size 308 entry 302 44=258 46=279 48=0 30=297 32=285 34=285 52=285 279=269 291=297 293=42 304=275 306=265
  > 5 PRIM EXIT 7 PRIM BRANCH 8 PRIM ?BRANCH 32 PRIM DUP 57 PRIM 1- : L BEGIN DUP WHILE 1- REPEAT ; : GO L ; BOOT GO | size 348 entry 342 321=302 323=292 325=333 327=311 329=278 331=321 333=265
  > END
  5 lines

A name that is made twice: its newest header is the chain's head and links to the older one, which the newest's own body calls. A vocabulary in a
vocabulary, and the heads in the records of both, which change after these were written.

  $ answers << 'END'
  > 5 PRIM EXIT : X EXIT ; : X X ; BOOT X | size 291 entry 285 30=281 42=281 44=258 46=0 48=0 258=0 269=0 281=269 275=265 277=265 287=273 289=265
  > 5 PRIM EXIT VOCABULARY V V DEFINITIONS VOCABULARY W : A ; W DEFINITIONS : A ; : B A ; FORTH DEFINITIONS : A ; V DEFINITIONS : C A ; BOOT C | size 357 entry 351 30=347 32=275 34=275 42=0 44=337 46=269 48=0 52=293 269=0 275=0 277=305 279=0 281=347 283=42 287=0 293=0 295=315 297=325 299=0 301=275 305=0 315=0 325=0 331=319 333=265 337=258 347=287 353=309 355=265
  > END
  2 lines

Every word of bodies, after twelve headers of eight bytes at 256 to 351, whose code fields are at 262, 270 and so on up to 350: 70000 is 4464 and
65,536, and `Hi` is 72 105, `bad` 98 97 100.

  $ answers << 'END'
  > {names}~: Z 70000. ['] I [COMPILE] I COMPILE E COMPILE [COMPILE] I DO E +LOOP ." Hi" DOES> ABORT" bad" ; | size 407 entry 262 360=270 362=4464 364=270 366=1 368=270 370=350 372=350 374=342 376=262 378=342 380=350 382=294 384=392 386=262 388=310 390=386 392=318 394=18434 396=20073 397=334 399=326 401=25091 403=25697 405=262
  > END
  1 lines

Each cause as the first fault.

  $ answers << 'END'
  > 7. , | screen 1 offset 0: BadNumber
  > 40000 ALLOT | screen 1 offset 0: BadNumber
  > 5 PRIM EXIT 5 PRIM X | screen 1 offset 12: BadPrimitive
  > 5 PRIM EXIT 10 PRIM (LOOP) : A (LOOP) ; | screen 1 offset 31: Misplaced
  > 5 PRIM E 18 PRIM X : A DOES> DOES> ; | screen 1 offset 29: Misplaced
  > BOOT ( | screen 1 offset 5: Misplaced
  > 5 PRIM E 8 PRIM Q : A IF ; | screen 1 offset 25: Unbalanced
  > : A FOO ; | screen 1 offset 4: Unknown
  > : A ; | screen 1 offset 4: Unknown
  > ; | screen 1 offset 0: Unknown
  > 5 PRIM E 6 PRIM L : A ['] FOO ; | screen 1 offset 26: Unknown
  > : ABCDEFGHIJKLMNOPQRSTUVWXYZ123456 | screen 1 offset 2: BadName
  > 32767 ALLOT 32767 ALLOT | screen 1 offset 18: Full
  > 5 PRIM EXIT | screen 1 offset 1024: NoBoot
  > 5 PRIM | screen 1 offset 1024: EndsInside
  > 5 PRIM E : A BEGIN | screen 1 offset 1024: EndsInside
  > 5 PRIM E 8 PRIM Q : A BEGIN IF UNTIL ; | screen 1 offset 31: Unbalanced
  > END
  17 lines

An earlier fault decides, and of two causes of a word the first.

  $ answers << 'END'
  > FOO 5 PRIM | screen 1 offset 0: Unknown
  > FOO 7. , | screen 1 offset 0: Unknown
  > FOO 4 PRIM X | screen 1 offset 0: Unknown
  > FOO DEFINITIONS | screen 1 offset 0: Unknown
  > 5 PRIM E FOO : A THEN ; | screen 1 offset 9: Unknown
  > 7. , FOO | screen 1 offset 0: BadNumber
  > FOO : ABCDEFGHIJKLMNOPQRSTUVWXYZ123456 | screen 1 offset 0: Unknown
  > FOO 32767 ALLOT 32767 ALLOT | screen 1 offset 0: Unknown
  > FOO | screen 1 offset 0: Unknown
  > 5 7. PRIM X | screen 1 offset 2: BadNumber
  > VOCABULARY V V 7. | screen 1 offset 15: BadNumber
  > 5 PRIM E 19 PRIM C : A COMPILE IF ; | screen 1 offset 31: Misplaced
  > 5 PRIM E 8 PRIM Q 18 PRIM X : A DOES> IF DOES> ; | screen 1 offset 41: Misplaced
  > 5 PRIM E 6 PRIM L 8 PRIM Q : A IF DOES> ; | screen 1 offset 34: Unbalanced
  > : A LOOP ; | screen 1 offset 4: Unbalanced
  > : A ." Hi | screen 1 offset 4: Unknown
  > END
  16 lines

Words that cannot come where they are.

  $ answers << 'END'
  > DEFINITIONS | screen 1 offset 0: Misplaced
  > 5 6 PRIM X | screen 1 offset 2: Misplaced
  > IMMEDIATE | screen 1 offset 0: Misplaced
  > CREATE X X DEFINITIONS | screen 1 offset 9: Misplaced
  > VOCABULARY V V 5 | screen 1 offset 15: Misplaced
  > 5 PRIM E BOOT E BOOT E | screen 1 offset 16: Misplaced
  > 5 PRIM E 32 PRIM I IMMEDIATE : A I ; | screen 1 offset 33: Misplaced
  > 5 PRIM E 6 PRIM L : A ['] IF ; | screen 1 offset 26: Misplaced
  > 5 PRIM E 8 PRIM Q : A IF ['] ; | screen 1 offset 25: Unknown
  > 5 PRIM E 19 PRIM C : A COMPILE ; | screen 1 offset 31: Misplaced
  > END
  10 lines

64 structures may be open, and no 65th. A text has 255 bytes at most.

  $ answers << 'END'
  > : A {open}; | screen 1 offset 388: Unbalanced
  > : A {open}BEGIN ; | screen 1 offset 388: Misplaced
  > END
  2 lines
  $ x255=$(printf 'x%.0s' {1..255})
  $ write "5 PRIM E 16 PRIM S : A .\" $x255\" ; BOOT A" > own.blk && builds 1 1
  size 540 entry 278
  $ write "5 PRIM E 16 PRIM S : A .\" x$x255\" ; BOOT A" > own.blk && builds 1 1
  screen 1 offset 23: BadName

Screens that do not exist, and faults of other screens than the first.

  $ answers << 'END'
  > 5 PRIM EXIT 6 PRIM (LIT) 8 PRIM ?BRANCH~: Y IF 1 ; | screen 2 offset 9: Unbalanced
  > : A ." Hi~ | screen 1 offset 4: Unknown
  > END
  2 lines
  $ answers 1 2 << 'END'
  >  | screen 2 offset 0: Device
  > : A FOO ; | screen 1 offset 4: Unknown
  > 5 PRIM | screen 2 offset 0: Device
  >   4 | screen 2 offset 0: Device
  > END
  4 lines
  $ answers 2 1 <<< ' | screen 1 offset 1024: NoBoot'
  1 lines
  $ answers 65535 65535 <<< ' | screen 65535 offset 0: Device'
  1 lines
  $ answers 1 65535 <<< '  4~( x ) PRIM | screen 1 offset 2: BadPrimitive'
  1 lines

The end of a screen ends a comment, a text, a number and a name, and no definition.

  $ answers << 'END'
  > >5 PRIM E ( no end~BOOT E | size 264 entry 262
  > >5 PRIM E (~BOOT E | size 264 entry 262
  > >5 PRIM E ( no end~) BOOT E | screen 2 offset 0: Unknown
  > >5 PRIM E BOOT~( no end | screen 2 offset 0: Misplaced
  > >5 PRIM~( BOOT ( | size 264 entry 262 256=2
  > >5 PRIM E 16 PRIM S : A ." Hi~; BOOT A | size 287 entry 278 280=270 282=18434 284=1641 285=262
  > >5 PRIM E 16 PRIM S : A ."~; BOOT A | size 285 entry 278 280=270 282=1536 283=262
  > >5 PRIM E 16 PRIM S : A ." Hi~there" ; BOOT A | screen 2 offset 0: Unknown
  > >5 PRIM E 12~34 , | screen 2 offset 0: Misplaced
  > >5 PRIM E 6 PRIM L : A 12~34 ; BOOT A | size 290 entry 278 280=270 282=12 284=270 286=34 288=262
  > >5 PRIM EX~IT BOOT EX | screen 2 offset 0: Unknown
  > 5~PRIM EXIT : A ; BOOT A | size 277 entry 273 256=2 267=2 275=265
  > >5 PRIM E :~A ; BOOT A | size 274 entry 270 256=1 264=2 272=262
  > >5 PRIM E 6 PRIM L 8 PRIM Q : A IF 1~THEN ; BOOT A | size 298 entry 286 280=1 288=278 290=296 292=270 294=1 296=262
  > END
  14 lines

What fits at the end of the dictionary, at 61,440. Screen 2 has a text at an address, after the twelve headers and zeros up to there.

  $ placed() {
  >   write "$names $((($1 - 352) / 2)) ALLOT $((($1 - 351) / 2)) ALLOT" "$2" > own.blk
  >   builds 1 2
  > }
  $ placed 61440 '0 ALLOT'
  size 61440 entry 262

No byte more fits there, but other causes come first:

  $ placed 61440 '4 PRIM Z'
  screen 2 offset 0: BadPrimitive
  $ placed 61440 '-1 ALLOT'
  screen 2 offset 0: BadNumber
  $ placed 61440 'CREATE ABCDEFGHIJKLMNOPQRSTUVWXYZ123456'
  screen 2 offset 7: BadName

Each line is `BYTES OFFSET NEXT TEXT`. With so many bytes left the word at NEXT is the first that does not fit, or with `-` all fits; with a byte less
it is the word at OFFSET. Printed is what differs.

  $ full() { [ "$1" = - ] && echo 'size 61440 entry 262' || echo "screen 2 offset $1: Full"; }
  $ while read -r bytes offset next text; do
  >   [ "$(placed $((61440 - bytes)) "$text")" = "$(full "$next")" ] || echo "$text with $bytes bytes: $(placed $((61440 - bytes)) "$text")"
  >   [ "$(placed $((61441 - bytes)) "$text")" = "$(full "$offset")" ] || echo "$text with $((bytes - 1)) bytes: $(placed $((61441 - bytes)) "$text")"
  > done << 'END'
  > 8 8 - 20 PRIM Z
  > 10 11 - 7 CONSTANT Z
  > 10 9 - VARIABLE Z
  > 8 7 - CREATE Z
  > 18 11 - VOCABULARY Z
  > 2 2 - 7 ,
  > 1 2 - 7 C,
  > 9 2 - 9 ALLOT
  > 8 2 4 : Z ;
  > 10 4 - : Z ;
  > 10 4 6 : Z E ;
  > 12 4 6 : Z 1 ;
  > 16 4 7 : Z 1. ;
  > 10 4 8 : Z ['] I ;
  > 12 8 10 : Z ['] I ;
  > 8 2 14 : Z [COMPILE] I ;
  > 10 14 16 : Z [COMPILE] I ;
  > 10 4 12 : Z COMPILE E ;
  > 12 12 14 : Z COMPILE E ;
  > 10 4 22 : Z COMPILE [COMPILE] I ;
  > 12 22 24 : Z COMPILE [COMPILE] I ;
  > 12 4 12 : Z IF THEN ;
  > 12 4 7 : Z IF ELSE THEN ;
  > 16 7 17 : Z IF ELSE THEN ;
  > 18 17 - : Z IF ELSE THEN ;
  > 8 2 10 : Z BEGIN UNTIL ;
  > 12 10 16 : Z BEGIN UNTIL ;
  > 12 10 16 : Z BEGIN AGAIN ;
  > 12 10 16 : Z BEGIN WHILE REPEAT ;
  > 16 16 23 : Z BEGIN WHILE REPEAT ;
  > 12 4 7 : Z DO LOOP ;
  > 16 7 12 : Z DO LOOP ;
  > 16 7 13 : Z DO +LOOP ;
  > 13 4 11 : Z ." Hi" ;
  > 14 4 16 : Z ABORT" bad" ;
  > 10 4 10 : Z DOES> ;
  > END

The screen in which a word was made; of a name that is made twice it is the newest one's. A number of a screen has two bytes in a header.

  $ views() { for name; do forth83 view own.img "$name"; done; }
  $ write '5 PRIM EXIT 6 PRIM (LIT) 7 PRIM BRANCH 8 PRIM ?BRANCH 23 PRIM BYE 32 PRIM DUP : Z DUP IF 1 ELSE -1 THEN ;' \
  >   ': GO 0 Z BYE ; : DUP 7 ; BOOT GO' > own.blk && builds 1 2
  size 389 entry 361
  $ views Z EXIT GO DUP
  1
  1
  2
  2
  $ views go
  go: NotFound
  [1]
  $ views ''
  : NotFound
  [1]
  $ write '5 PRIM EXIT 23 PRIM BYE : GO BYE ; BOOT GO' > own.blk
  $ { head -c 263168 /dev/zero | tr '\0' ' '; tail -c 1024 own.blk; } > far.blk && mv far.blk own.blk && builds 257 257
  size 290 entry 284
  $ views GO EXI
  257
  EXI: NotFound
  [1]

A chain of headers that is a circle: EXIT links to itself, and is found all the same. B is in another chain, A in this one.

  $ printf '\2\1' | dd of=own.img bs=1 seek=$((16 + 258)) conv=notrunc status=none
  $ views EXIT
  257
  $ views B
  B: NotFound
  [1]
  $ views A
  A: ChainTooLong
  [1]

An image of version 1, for two buffers: the same bytes after another header.

  $ write '5 PRIM EXIT 23 PRIM BYE : GO BYE ; BOOT GO' > own.blk && builds 1 1 > built
  $ { printf 'FTH83IMG\1\0'; tail -c +13 own.img; } > old && forth83 upgrade old two --buffers 2
  size 290 buffers 2
  $ head -c 16 two | od -An -c
     F   T   H   8   3   I   M   G 002  \0 002  \0 034 001   " 001
  $ cmp -i 16 own.img two

The kernel's file of blocks: 20 screens of sources with titles, and blank ones.

  $ forth83 kernel kernel.blk && stat -c %s kernel.blk
  65536
  $ for screen in {1..20}; do tail -c +$((screen * 1024 + 1)) kernel.blk | head -c 6; done
  (  1  (  2  (  3  (  4  (  5  (  6  (  7  (  8  (  9  ( 10  ( 11  ( 12  ( 13  ( 14  ( 15  ( 16  ( 17  ( 18  ( 19  ( 20   (no-eol)
  $ { head -c 1024 kernel.blk; tail -c +$((21 * 1024 + 1)) kernel.blk; } | tr -d ' '
  $ lines() { for at; do tail -c +$((at * 64 + 1)) kernel.blk | head -c 16 | sed 's/ *$//'; echo; done; }
  $ lines $((1 * 16 + 1)) $((2 * 16 + 1)) $((15 * 16 + 5)) $((20 * 16 + 6))
    5 PRIM EXIT
   19 PRIM COMPILE
  204 PRIM WIPE
  BOOT COLD
