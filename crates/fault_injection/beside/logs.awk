# Of each row of a script and of the logs of its scopes, a file of the script in the folder, which shows them; the lines of
# all logs go to the folder's `logs.wanted`:
#
#     awk -F '|' -v folder=FOLDER -f logs.awk FILE

/^;/ { next }
{
    out = sprintf("%s/%04d.script", folder, ++count)
    gsub(" / ", "\n")
    print $1 "\n# show 3" > out
    close(out)
    for (scope = 2; scope <= NF; scope++) print $scope > (folder "/logs.wanted")
}
