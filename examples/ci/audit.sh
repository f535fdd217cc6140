#!/bin/sh
# A job elsewhere: verifies the certificate CERT that a pipeline kept for the systems SPEC and IMPL.
# Words: SPEC IMPL CERT, and then the options on labels and cycles that the check had. FITSOWAR names the program.
# Exit status: 0 it is accepted; 1 it is rejected; 3 the job is broken, and nothing is said of the certificate.
set -u
fitsowar=${FITSOWAR:-fitsowar}
if [ "$#" -lt 3 ]; then
    echo "audit.sh: SPEC IMPL CERT [OPTIONS]" >&2
    exit 3
fi
spec=$1
implementation=$2
certificate=$3
shift 3
answer=$("$fitsowar" verify "$@" -- "$spec" "$implementation" "$certificate")
status=$?
case $status in
0)
    kind=$(sed -n 's/^kind //p' "$certificate")
    if [ "$kind" = relation ]; then
        echo "ACCEPTED: it conforms"
    else
        echo "ACCEPTED: it doesn't conform"
    fi
    ;;
1) echo "REJECTED: $answer" ;;
*)
    echo "BROKEN fitsowar ended with status $status: $answer"
    exit 3
    ;;
esac
exit "$status"
