#!/usr/bin/env bash
# usage: harness/fetch.sh FOLDER
#
# Unpacks MIT Kerberos and Heimdal (of both KDC, kadmin, clients, libraries and headers) from Debian's packages into FOLDER/mit
# and FOLDER/heimdal, into FOLDER/kpropd what a replica of MIT's runs, into FOLDER/pam, FOLDER/pam-heimdal and FOLDER/sssd what
# logs users in, and into FOLDER/logrotate what rotates logs. Nothing is installed: the two conflict as packages, and not as
# folders (unpack.sh).
#
# Status: 0; 1 or that of apt-get if the packages can't be had; 2 if the command line is wrong.
set -euo pipefail
. "$(dirname "$0")/command.sh"
command_line 1 word "$@"
. "$(dirname "$0")/unpack.sh"

# each with the libraries that a plain Debian doesn't have
mit=(krb5-kdc krb5-admin-server krb5-user krb5-multidev libkrb5-3 libk5crypto3 libkrb5support0
    libgssapi-krb5-2 libgssrpc4 libkdb5-10 libkadm5srv-mit12 libkadm5clnt-mit12 libverto1
    libverto-libev1 libev4 libcom-err2 libss2 libkeyutils1 comerr-dev)
heimdal=(heimdal-clients heimdal-kdc libkdc2-heimdal libcap-ng0 libasn1-8-heimdal libgssapi3-heimdal
    libhcrypto5-heimdal libhdb9-heimdal libheimbase1-heimdal libheimntlm0-heimdal libhx509-5-heimdal
    libkadm5clnt7-heimdal libkadm5srv8-heimdal libkafs0-heimdal libkrb5-26-heimdal libotp0-heimdal
    libroken19-heimdal libsl0-heimdal libwind0-heimdal liblmdb0 libcom-err2 libdb5.3 libsqlite3-0
    libedit2 libbsd0 libmd0 heimdal-multidev comerr-dev)

sssd=(sssd-common sssd-krb5-common sssd-krb5 sssd-proxy libpam-sss libnss-sss libsss-idmap0
    libsss-nss-idmap0 libsss-certmap0 libbasicobjects0 libcollection4 libdhash1 libpath-utils1
    libref-array1 libini-config5 liblmdb0 libtalloc2 libtdb1 libtevent0 libldb2 libnl-3-200
    libnl-route-3-200 libpopt0 libc-ares2 libdbus-1-3 libjansson4 libkeyutils1)

begin "$@"
unpack mit "${mit[@]}"
unpack heimdal "${heimdal[@]}"
unpack kpropd krb5-kpropd
unpack pam libpam-krb5 pamtester libpam-wrapper libnss-wrapper
unpack pam-heimdal libpam-heimdal
unpack sssd "${sssd[@]}"
unpack logrotate logrotate libpopt0
