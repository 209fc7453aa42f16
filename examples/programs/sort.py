#!/usr/bin/env python3
"""Answers the list that it is given, as `(Cons 2 (Cons 0 Nil))`, in ascending order."""
import re
import sys

answer = 'Nil'
for number in sorted(map(int, re.findall(r'\d+', sys.argv[1])), reverse=True):
    answer = f'(Cons {number} {answer})'
print(answer)
