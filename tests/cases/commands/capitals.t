`./forth capitals` makes capitals of words, and leaves comments, strings and what is no source alone. The capitals were written by hand.

  $ . "$TESTDIR/lib.sh"

Comments and strings that end in the next line, a word after ASCII, a line of escapes, and a rest that is no source:

  $ cat > small.txt << 'END'
  > % screen 21
  > ( A comment that
  > goes on ) : square dup * ; \ and One
  > : hi ." Hello, you" cr ascii a emit ;
  > %%odd .( shown Now ) abort" no way" base
  > ." over
  > the end" dup
  > %~variable x ~09 !
  > ;s and the rest
  > ( so ) does this
  > % screen 22
  > : x 1 ;
  > END
  $ forth capitals small.txt
  % screen 21
  ( A comment that
  goes on ) : SQUARE DUP * ; \ and One
  : HI ." Hello, you" CR ASCII a EMIT ;
  %%ODD .( shown Now ) ABORT" no way" BASE
  ." over
  the end" DUP
  %~VARIABLE X ~09 !
  ;S and the rest
  ( so ) does this
  % screen 22
  : X 1 ;

What is no text of screens:

  $ printf ': \351 ;\n' > small.txt; forth capitals small.txt 2>&1 | grep -o 'is not a text of screens'; echo "${PIPESTATUS[0]}"
  is not a text of screens
  1
  $ printf '%-2048s' ': twice dup + ;' > small.txt; forth capitals small.txt 2>&1 | grep -o 'has no lines'; echo "${PIPESTATUS[0]}"
  has no lines
  1
  $ forth capitals none 2>&1 | grep -o 'none: No such file'; echo "${PIPESTATUS[0]}"
  none: No such file
  1
  $ forth capitals . 2>&1 | grep -o ': Is a directory'; echo "${PIPESTATUS[0]}"
  : Is a directory
  1
