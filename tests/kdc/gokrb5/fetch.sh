#!/usr/bin/env bash
# usage: tests/kdc/gokrb5/fetch.sh FOLDER
#
# Unpacks gokrb5 with all that it needs, and the Go compiler, from Debian's packages into FOLDER/go. Nothing is installed
# (harness/unpack.sh).
#
# Status: 0; 1 or that of apt-get if the packages can't be had; 2 if the command line is wrong.
set -euo pipefail
. "$(dirname "$0")/../../../harness/command.sh"
command_line 1 word "$@"
. "$(dirname "$0")/../../../harness/unpack.sh"

compiler=(golang-1.19-go golang-1.19-src)
library=(golang-github-jcmturner-gokrb5.v8-dev golang-github-jcmturner-aescts.v2-dev
    golang-github-jcmturner-dnsutils.v2-dev golang-github-jcmturner-gofork-dev
    golang-github-jcmturner-goidentity.v6-dev golang-github-jcmturner-rpc.v2-dev
    golang-github-hashicorp-go-uuid-dev golang-golang-x-crypto-dev golang-golang-x-net-dev)

begin "$@"
unpack go "${compiler[@]}" "${library[@]}"
