#!/bin/sh
# A function of a shell, called on the word that the script is given.
increment() {
    echo $(($1 + 1))
}
increment "$1"
