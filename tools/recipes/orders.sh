#!/bin/sh
# Makes lib/domains.db, a list of domains of squidGuard, which compares keys from their ends: by squidGuard, from the
# text lib/domains.
seq 1 300 | sed 's/.*/host&.example.org/' >lib/domains
printf 'dbhome %s/lib\nlogdir %s\ndest blocked {\n    domainlist domains\n}\nacl {\n    default {\n        pass !blocked all\n        redirect http://localhost/\n    }\n}\n' \
    "$PWD" "$PWD" >squidGuard.conf
squidGuard -c squidGuard.conf -C domains
