#!/usr/bin/env bash
# usage: tests/kdc/ldap/fetch.sh FOLDER
#
# Unpacks OpenLDAP's server with its programs, and MIT's module by which a KDC has its database there, from Debian's packages
# into FOLDER/ldap. Nothing is installed (harness/unpack.sh). Heimdal's library has LDAP of its own.
#
# Status: 0; 1 or that of apt-get if the packages can't be had; 2 if the command line is wrong.
set -euo pipefail
. "$(dirname "$0")/../../../harness/command.sh"
command_line 1 word "$@"
. "$(dirname "$0")/../../../harness/unpack.sh"

# with the libraries that a plain Debian doesn't have
ldap=(slapd ldap-utils krb5-kdc-ldap libldap-2.5-0 libltdl7 libodbc2 libsasl2-2 libsasl2-modules-db libwrap0
    libnsl2 libtirpc3)

begin "$@"
unpack ldap "${ldap[@]}"
