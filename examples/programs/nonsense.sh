#!/bin/sh
# Answers what is no value of the theory.
echo three
