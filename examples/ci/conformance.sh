#!/bin/sh
# A job of a pipeline: checks the system IMPL against SPEC, and keeps the certificate of the answer as CERT.
# Words: SPEC IMPL CERT, and then options of check. FITSOWAR names the program; else it is found on the PATH.
# Exit status: 0 it conforms; 1 it doesn't; 2 undecided; 3 the job is broken, and nothing is said of IMPL.
set -u
fitsowar=${FITSOWAR:-fitsowar}
if [ "$#" -lt 3 ]; then
    echo "conformance.sh: SPEC IMPL CERT [OPTIONS]" >&2
    exit 3
fi
spec=$1
implementation=$2
certificate=$3
shift 3
rm -f "$certificate"
"$fitsowar" check --cert "$@" -- "$spec" "$implementation" > "$certificate.part"
status=$?
case $status in
0 | 1)
    mv "$certificate.part" "$certificate" || exit 3
    if [ "$status" -eq 0 ]; then
        echo "PASS $implementation conforms to $spec"
    else
        echo "FAIL $implementation violates $spec:"
        sed -n -e '/^after /p' -e '/^shows /p' "$certificate"
    fi
    exit "$status"
    ;;
2) echo "UNDECIDED $implementation: $(cat "$certificate.part")" ;;
*) echo "BROKEN fitsowar ended with status $status: $(cat "$certificate.part")" ;;
esac
rm -f "$certificate.part"
[ "$status" -eq 2 ] && exit 2
exit 3
