#!/usr/bin/env python3
"""Answers the list that it is given in descending order, which is wrong."""
import re
import sys

answer = 'Nil'
for number in sorted(map(int, re.findall(r'\d+', sys.argv[1]))):
    answer = f'(Cons {number} {answer})'
print(answer)
