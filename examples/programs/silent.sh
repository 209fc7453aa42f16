#!/bin/sh
# Answers nothing.
exit 0
