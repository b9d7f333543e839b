#!/bin/sh
# Compiles and runs Scores.java with Debian's packages libgoogle-api-client-java and libgoogle-api-services-sheets-java.
#
#     ./sheets serve --port 8080 --limit 100
#     sh examples/clients/scores_java.sh [URL]    # URL is http://127.0.0.1:8080 where it isn't given
set -eu
here=$(cd "$(dirname "$0")" && pwd)
jars=/usr/share/java
for jar in google-api-services-sheets google-api-client google-http-client google-http-client-gson gson guava \
    opencensus-api opencensus-contrib-http-util grpc-context; do
    path=${path:+$path:}$jars/$jar.jar
done
classes=$(mktemp -d)
trap 'rm -rf "$classes"' EXIT
javac -cp "$path" -d "$classes" "$here/Scores.java" "$here/debian/com/google/api/client/googleapis/GoogleUtils.java"
java -cp "$classes:$path" Scores "$@"
