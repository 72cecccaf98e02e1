* A stall buys for 3 a sack and sells for 5. Two sacks stand there, and what is sold beyond them has to be bought. To open the
* stall costs 4, and it has to be open. The value is made small, so a gain is negative; nothing limits how much is traded.
NAME MARKET
ROWS
 N COST
 L STOCK
 G PERMIT
COLUMNS
 M 'MARKER' 'INTORG'
 OPEN COST 4 PERMIT 1
 M 'MARKER' 'INTEND'
 BUY COST 3 STOCK -1
 SELL COST -5 STOCK 1
RHS
 STOCK 2 PERMIT 1
BOUNDS
 BV OPEN
ENDATA
