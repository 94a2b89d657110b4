\ The job of the image "240 bytes decoded" (bench/src/images/decode.rs) as one would write it in Forth, for gforth.
\ decode.lua says what is read and answered; there is no limit of steps.

create frame 4096 allot
variable length
variable greatest
variable sum
create printed 4096 cells allot
variable prints
create watches 8 cells allot
variable hung

\ A watch that prints the bytes below 12, and one that changes the sum of the decoder.
: honest ( byte -- ) dup 12 < if printed prints @ cells + ! 1 prints +! else drop then ;
: harmful ( byte -- ) drop 0 sum ! ;

: show ( byte -- ) hung @ 0 ?do dup watches i cells + @ execute loop drop ;

\ Keeps the greatest byte, adds all up and shows each to the watches.
: decode-frame ( -- )
  0 greatest ! 0 sum ! 0 prints !
  length @ 0 ?do
    frame i + c@
    dup greatest @ > if dup greatest ! then
    dup sum +!
    show
  loop ;

create line 16384 allot
: question ( -- address count flag ) line line 16000 stdin read-line throw ;

: digits ( address count -- number ) 0 0 2swap >number 2drop drop ;

: receive ( -- )
  question drop 2/ dup length !
  hex 0 ?do dup i 2* + 2 digits frame i + c! loop drop decimal ;

\ The next word of a text, and what is behind it.
: word-of ( address count -- rest count' word count'' )
  2dup bl scan 2dup 2>r nip - 2r> 1 /string 2swap ;

: answer ( calls -- )
  cputime d+ 2>r
  dup 0 ?do decode-frame loop
  cputime d+ 2r> d- drop 1000 * swap / 0 .r space
  sum @ greatest @ - . greatest @ . sum @ .
  prints @ 0 ?do printed i cells + @ . loop cr stdout flush-file throw ;

: main ( -- )
  receive 1 hung !
  begin question while
    word-of digits >r word-of 2drop
    s" harmful" compare 0= if ['] harmful else ['] honest then watches !
    r> answer
  repeat 2drop ;

main bye
