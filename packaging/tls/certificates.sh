#!/usr/bin/env bash
# Keeps the certificates of a cluster in a folder, by openssl:
#
#     certificates.sh FOLDER ca               makes the authority, and an empty list of what it revoked
#     certificates.sh FOLDER machine ID       a certificate of the machine of node ID, named machine-ID
#     certificates.sh FOLDER client NAME      a certificate of a client, named client-NAME
#     certificates.sh FOLDER revoke NAME      revokes all certificates of that name, and writes the list anew
#     certificates.sh FOLDER list             what was issued: state, when it ends, when it was revoked, number, name
#
# A machine or a client that is named once more gets a new key and a new certificate: the earlier one holds until it
# ends or its name is revoked. NAME.pem is a certificate, NAME.key its key, ca.pem the authority, crl.pem the list.
# ca.key never leaves the folder. Certificates hold for DAYS (397) days, the authority and the list for ten years: a
# list that has ended would shut everybody out.
set -eu
umask 077
folder=${1:-}
order=${2:-}
name=${3:-}
ten_years=3650

write_settings() {
    cat > settings << SETTINGS
[ca]
default_ca = cluster
[cluster]
dir = .
database = issued.txt
new_certs_dir = issued
serial = serial
certificate = ca.pem
private_key = ca.key
default_md = sha256
default_days = ${DAYS:-397}
default_crl_days = $ten_years
unique_subject = no
policy = names
[names]
commonName = supplied
SETTINGS
}

make_authority() {
    if [ -e ca.key ]; then
        echo "$folder has an authority already" >&2
        exit 1
    fi
    mkdir -p issued
    : > issued.txt
    openssl rand -hex 16 > serial
    openssl req -x509 -new -newkey ec -pkeyopt ec_paramgen_curve:prime256v1 -noenc -sha256 -days "$ten_years" \
        -subj '/CN=ccnode authority' -addext 'basicConstraints=critical,CA:TRUE,pathlen:0' \
        -addext 'keyUsage=critical,keyCertSign,cRLSign' -keyout ca.key -out ca.pem
    write_list
}

write_list() {
    openssl ca -config settings -gencrl -out crl.pem
    chmod 644 ca.pem crl.pem
}

# A key and a certificate of that name, which is also its only host name, for these uses.
issue() {
    openssl req -new -newkey ec -pkeyopt ec_paramgen_curve:prime256v1 -noenc -subj "/CN=$1" -keyout "$1.key" \
        -out "$1.request"
    openssl ca -config settings -batch -notext -in "$1.request" -out "$1.pem" -extfile <(
        echo 'basicConstraints=critical,CA:FALSE'
        echo 'keyUsage=critical,digitalSignature'
        echo "extendedKeyUsage=$2"
        echo "subjectAltName=DNS:$1"
    )
    rm "$1.request"
    chmod 644 "$1.pem"
}

# The numbers of the certificates of that name that hold.
numbers_of() {
    awk -F '\t' -v name="/CN=$1" '$1 == "V" && $6 == name { print $4 }' issued.txt
}

revoke() {
    local number numbers
    numbers=$(numbers_of "$1")
    if [ -z "$numbers" ]; then
        echo "no certificate of $1 holds" >&2
        exit 1
    fi
    for number in $numbers; do
        openssl ca -config settings -revoke "issued/$number.pem"
    done
    write_list
}

check_name() {
    case $1 in
        '' | *[!a-z0-9-]*)
            echo 'a name is of small letters, digits and -' >&2
            exit 2
            ;;
    esac
}

usage() {
    sed -n '2,/^set/s/^# \{0,1\}//p' "$0" >&2
    exit 2
}

# What openssl says is shown where it fails.
tell_faults() {
    [ "$1" = 0 ] || cat said >&3
    rm -f said
}

case $order in
    ca | list) ;;
    machine | client | revoke) check_name "$name" ;;
    *) usage ;;
esac
mkdir -p "$folder"
cd "$folder"
exec 3>&2 2> said
trap 'tell_faults $?' EXIT
write_settings
case $order in
    ca) make_authority ;;
    machine) issue "machine-$name" serverAuth,clientAuth ;;
    client) issue "client-$name" clientAuth ;;
    revoke) revoke "$name" ;;
    list) cut -f 1-4,6 issued.txt ;;
esac
