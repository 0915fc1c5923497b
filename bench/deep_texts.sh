#!/usr/bin/env bash
# The deepest and widest queries that 65,536 bytes and the limits allow, for the scripts of this folder: each function prints a script that makes a table of one row and asks the query, which answers one row.
table="CREATE TABLE T (A INTEGER); INSERT INTO T VALUES (1);"

# deepest_chain BEFORE AFTER: the deepest chain of set operators, 50 parentheses round chains of 64 operands, alone or inside a query.
deepest_chain() {
  awk -v table="$table" -v before="$1" -v after="$2" 'BEGIN {
    query = "SELECT*FROM T"; operator = " UNION "; others = ""; text = before
    for (turn = 1; turn < 64; turn++) others = others operator query
    for (depth = 0; depth < 50; depth++) text = text "("
    text = text query others
    for (depth = 0; depth < 50; depth++) text = text ")" others
    print table text after ";"
  }'
}

# Subqueries in subqueries, as deep as parentheses may stand, each asked at a row of the one round it.
deepest_subqueries() {
  awk -v table="$table" 'BEGIN {
    text = ""
    for (depth = 0; depth < 64; depth++) text = text "SELECT A FROM T X" depth " WHERE EXISTS ("
    text = text "SELECT A FROM T WHERE X63.A=A AND X0.A=A"
    for (depth = 0; depth < 64; depth++) text = text ")"
    print table text ";"
  }'
}

# Eight tables, 256 set functions and a condition of 64 chains of 64 operands.
widest_query() {
  awk -v table="$table" 'BEGIN {
    items = "SUM(A.A+H.A)"
    for (item = 1; item < 256; item++) items = items ",SUM(A.A+H.A)"
    either = "A.A=H.A+1"
    for (turn = 2; turn < 64; turn++) either = either " OR B.A=G.A+1"
    either = "(" either " OR C.A=F.A)"
    all = either
    for (turn = 1; turn < 64; turn++) all = all " AND " either
    print table "SELECT " items " FROM T A,T B,T C,T D,T E,T F,T G,T H WHERE " all ";"
  }'
}
