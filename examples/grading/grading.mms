* Grades adjacent pairs of relays on a line that can be fed from either end. For a fault just beyond a breaker, that breaker must
* open first, and the next one towards the feed at least a margin later.
*
* Columns: address, the four bytes there, label, instruction, comment. The host reads addresses and bytes from this file; lines
* that begin with an asterisk are for people. A constant is Y - Z of NEGU; a copy is ADDU with 0.
*
* Window A has this program, and for each direction of feed a block of what is known (the host puts it there):
*   +#00 how many relays, n          +#30 where verdicts go
*   +#08 the margin, ms              +#38 where verdicts of the case go
*   +#10 how late a breaker opens    +#40 n octabytes: the current of a fault just beyond each breaker, A
*   +#18 pairs not graded            +#80 n curves, each of six points: current (a tetra, A), time (a tetra, ms); current rises,
*   +#20 the same in the case             time falls, and the last current is above any fault's
* Relay 0 is the one at the feed. The block of forward feed is at #400, that of reversed feed at #700.
* A verdict is three octabytes: the nearer relay's time, the farther one's, and what is left of the margin (below 0: not graded).
* The stack is in window B.

* ---- $0 is the direction of feed, a local of the caller: #F0 forward, #0F reversed; $1 is the block
100  37 00 F0 00   Main    NEGU    $0,#F0,0      feed forward
104  F4 01 00 BF           GETA    $1,#400       its block
108  37 03 01 00   Next    NEGU    $3,1,0        from relay 1 on, whose pair is with relay 0
10C  23 04 01 00           ADDU    $4,$1,0
110  8D 05 01 30           LDO     $5,$1,#30     verdicts
114  8D 06 01 08           LDO     $6,$1,#08     margin
118  F2 02 00 13           PUSHJ   $2,Feed       how many pairs are not graded
11C  AD 02 01 18           STO     $2,$1,#18
120  23 FE 01 00           ADDU    $254,$1,0     a global tells the case which block it is about
124  FA FF 00 00           SAVE    $255,0        park direction, block and all else while a case is worked
* ---- the case: a breaker opens late, so the margin has to be larger by that
128  37 01 01 00           NEGU    $1,1,0
12C  23 02 FE 00           ADDU    $2,$254,0
130  8D 03 FE 38           LDO     $3,$254,#38   verdicts of the case
134  8D 04 FE 08           LDO     $4,$254,#08   margin
138  8D 05 FE 10           LDO     $5,$254,#10   how late
13C  20 04 04 05           ADD     $4,$4,$5
140  F2 00 00 09           PUSHJ   $0,Feed
144  AD 00 FE 20           STO     $0,$254,#20
148  FB 00 00 FF           UNSAVE  0,$255        take the context up again
14C  33 02 00 F0           CMPU    $2,$0,#F0     the direction is as it was
150  4A 02 00 04           BNZ     $2,Done       reversed: both are done
154  37 00 0F 00           NEGU    $0,#0F,0      feed reversed
158  F4 01 01 6A           GETA    $1,#700
15C  F1 FF FF EB           JMP     Next
160  00 00 00 00   Done    TRAP    0,0,0         Halt, which the host serves

* ---- Feed: $0 relay k, $1 block, $2 where its verdict goes, $3 margin; grades the pair of k and k - 1, and feeds on to k + 1.
* ---- Its output is how many pairs from k on are not graded.
164  FE 04 00 04   Feed    GET     $4,rJ
168  8D 05 01 00           LDO     $5,$1,#00     n
16C  30 05 00 05           CMP     $5,$0,$5
170  48 05 00 1A           BNN     $5,Last       no relay k
174  2C 06 00 01           8ADDU   $6,$0,$1
178  8D 06 06 40           LDO     $6,$6,#40     the fault beyond breaker k
17C  23 08 00 00           ADDU    $8,$0,0
180  23 09 01 00           ADDU    $9,$1,0
184  23 0A 06 00           ADDU    $10,$6,0
188  F2 07 00 16           PUSHJ   $7,Curve      the nearer relay's time
18C  27 09 00 01           SUBU    $9,$0,1
190  23 0A 01 00           ADDU    $10,$1,0
194  23 0B 06 00           ADDU    $11,$6,0
198  F2 08 00 12           PUSHJ   $8,Curve      the farther one's
19C  24 09 08 07           SUB     $9,$8,$7
1A0  24 09 09 03           SUB     $9,$9,$3      what is left of the margin
1A4  AD 07 02 00           STO     $7,$2,0
1A8  AD 08 02 08           STO     $8,$2,8
1AC  AD 09 02 10           STO     $9,$2,16
1B0  23 0B 00 01           ADDU    $11,$0,1
1B4  23 0C 01 00           ADDU    $12,$1,0
1B8  23 0D 02 18           ADDU    $13,$2,24
1BC  23 0E 03 00           ADDU    $14,$3,0
1C0  F3 0A FF E9           PUSHJ   $10,Feed      the rest of the line
1C4  48 09 00 02           BNN     $9,Kept
1C8  23 0A 0A 01           ADDU    $10,$10,1     this pair is not graded
1CC  F6 04 00 04   Kept    PUT     rJ,$4
1D0  23 00 0A 00           ADDU    $0,$10,0
1D4  F8 01 00 00           POP     1,0
1D8  37 00 00 00   Last    NEGU    $0,0,0
1DC  F8 01 00 00           POP     1,0

* ---- Curve: $0 relay, $1 block, $2 current; its output is the relay's time at that current, on the line between two points
1E0  19 00 00 30   Curve   MUL     $0,$0,48      six points of two tetras
1E4  22 00 00 01           ADDU    $0,$0,$1
1E8  23 00 00 80           ADDU    $0,$0,#80
1EC  89 03 00 08   Point   LDT     $3,$0,8       the current of the point after this one
1F0  30 04 02 03           CMP     $4,$2,$3
1F4  4C 04 00 03           BNP     $4,Between
1F8  23 00 00 08           ADDU    $0,$0,8
1FC  F1 FF FF FC           JMP     Point
200  89 04 00 00   Between LDT     $4,$0,0       its own current
204  89 05 00 04           LDT     $5,$0,4       and time
208  89 06 00 0C           LDT     $6,$0,12      the time of the point after
20C  24 05 05 06           SUB     $5,$5,$6
210  24 07 03 02           SUB     $7,$3,$2
214  24 03 03 04           SUB     $3,$3,$4
218  18 05 05 07           MUL     $5,$5,$7
21C  1C 05 05 03           DIV     $5,$5,$3
220  20 00 06 05           ADD     $0,$6,$5
224  F8 01 00 00           POP     1,0
