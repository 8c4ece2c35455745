#!/usr/bin/env bash
# Runs a command where sssd serves logins, without systemd: in a mount namespace, where the packages
# unpacked in PACKAGES lie over the machine's files. It needs root, and leaves nothing on the machine.
#
#   unshare --mount sssd.sh PACKAGES FOLDER COMMAND WORD ..
#
# FOLDER has sssd.conf, krb5.conf, passwd and group; what sssd tells goes into FOLDER/sssd.out.
set -euo pipefail
packages=$1
folder=$2
shift 2

mount --make-rprivate /
mount -t overlay -o "lowerdir=$packages/usr:/usr" overlay /usr
# where Debian's packages of this age still have libraries
mount -t overlay -o "lowerdir=$packages/lib:/usr/lib" overlay /usr/lib
mkdir "$folder/over"
mount -t tmpfs tmpfs "$folder/over"
for place in etc var; do
    mkdir -p "$folder/over/$place/upper" "$folder/over/$place/work"
    layers=lowerdir=/$place,upperdir=$folder/over/$place/upper,workdir=$folder/over/$place/work
    mount -t overlay -o "$layers" overlay "/$place"
done
mkdir -p /etc/sssd/conf.d /var/log/sssd /var/lib/sss/{db,mc,secrets,pubconf/krb5.include.d,pipes/private}
chmod 700 /var/lib/sss/pipes/private
cp "$folder"/{krb5.conf,passwd,group} /etc/
install -m 600 "$folder/sssd.conf" /etc/sssd/
for kind in auth account password session; do
    echo "$kind required pam_sss.so"
done > /etc/pam.d/login
mount -t tmpfs tmpfs /run

setsid /usr/sbin/sssd -i --logger=stderr > "$folder/sssd.out" 2>&1 < /dev/null &
trap 'kill -KILL -- -$!' EXIT
for _ in {1..400}; do
    [[ -S /var/lib/sss/pipes/pam ]] && break
    sleep 0.05
done
"$@"
