#!/bin/sh
# Prints a script of 10,000 lines over 16 members: they store by turns, and everything is carried, in 20 pieces. After 200 stores
# what was sent is acknowledged, before 500 posts are kept, and each node crashes, before it put out 8,000 outputs.
awk 'BEGIN {
  members = 16
  for (i = 1; i <= members; i++) list = list (i > 1 ? "," : "") i
  for (i = 1; i <= members; i++) line("member " i " of " list)
  while (lines < 10000) {
    storer = round % members + 1
    line("ask " storer " 7 " ++request[storer] " store a" round)
    for (piece = 1; piece <= 20; piece++) line("all 14")
    for (i = 1; i <= members; i++) posts[i]++
    posts[storer]++
    if (++round % 200 == 0)
      for (i = 1; i <= members; i++) {
        for (peer = 1; peer <= members; peer++) line("acked " i " " peer " " posts[i])
        line("crash " i " fill a5")
      }
  }
}
function line(text) { if (lines++ < 10000) print text }'
