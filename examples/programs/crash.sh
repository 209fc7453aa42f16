#!/bin/sh
# Ends with an error.
exit 3
