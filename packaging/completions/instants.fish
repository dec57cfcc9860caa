# Made by tools/completions.py: the words of instants(1), instants-lines(1), instants-merge(1) and description_check(1).

function __instants_words
    set -l before (commandline -opc)
    set -l place (count $before)
    set -l name (string replace -r '.*/' '' -- $before[1])
    switch "$name:$before[-1]:$place"
        case 'description_check:*:1'
            set found v1 v2 v3 strftime
        case 'description_check:*'
            return
        case 'instants-merge:-f:*'
            set found guess rfc3339 rfc2822 iso8601 v1 v2 v3 strftime access-log go-time serilog jenkins psql git-log twitter docker-json json-time auditd haproxy apache-error python-logging postgres go-log tomcat redis suricata erlang glog java-logging mdy-am-pm windows-events dmy-dots dmy mdy ctime date-utc cloudfront apt mysql mariadb nginx-error php oracle cisco-asa openssl pacman unix-fraction unix-nanos unix-micros unix-millis unix-time klog logcat snort syslog-fraction syslog spark dmy-short ledger date
        case '*:v1:*' '*:v2:*' '*:v3:*' '*:strftime:*' '*:year:*' '*:time:*' '*:field:*' '*:column:*' '*:separator:*' '*:label:*'
            return
        case 'instants:*:1'
            set found +00:00
        case 'instants:*:2'
            set found - +00:00
        case 'instants:*:3'
            set found 100 1048576
        case 'instants:*'
            set found rfc3339 rfc2822 iso8601 v1 v2 v3 strftime
        case '*:1' '*:-q:*' '*:--count:*'
            set found key carry replace locate explain guess -q --count --help --version
        case '*:2' '*:3' '*:4' '*:5'
            set found +00:00 - 64 1048576 year time field column separator label rfc3339 rfc2822 iso8601 v1 v2 v3 strftime access-log go-time serilog jenkins psql git-log twitter docker-json json-time auditd haproxy apache-error python-logging postgres go-log tomcat redis suricata erlang glog java-logging mdy-am-pm windows-events dmy-dots dmy mdy ctime date-utc cloudfront apt mysql mariadb nginx-error php oracle cisco-asa openssl pacman unix-fraction unix-nanos unix-micros unix-millis unix-time klog logcat snort syslog-fraction syslog spark dmy-short ledger date
            # (a zone begins with a capital letter)
            if test $place = 3; and string match -qr '^[A-Z]' -- (commandline -ct)
                set -q TZDIR; or set -l TZDIR /usr/share/zoneinfo
                set found (cat $TZDIR/zone.tab 2> /dev/null | string match -v '#*' | cut -f3)
            end
        case '*'
            set found year time field column separator label rfc3339 rfc2822 iso8601 v1 v2 v3 strftime access-log go-time serilog jenkins psql git-log twitter docker-json json-time auditd haproxy apache-error python-logging postgres go-log tomcat redis suricata erlang glog java-logging mdy-am-pm windows-events dmy-dots dmy mdy ctime date-utc cloudfront apt mysql mariadb nginx-error php oracle cisco-asa openssl pacman unix-fraction unix-nanos unix-micros unix-millis unix-time klog logcat snort syslog-fraction syslog spark dmy-short ledger date
    end
    printf '%s\n' $found
end

for name in instants instants-lines description_check
    complete -c $name -f -a '(__instants_words)'
end
complete -c instants-merge -s f -x -a '(__instants_words)'
complete -c instants-merge -s a
complete -c instants-merge -s y
complete -c instants-merge -s t
complete -c instants-merge -s l
complete -c instants-merge -s j
complete -c instants-merge -l since
complete -c instants-merge -l until
complete -c instants-merge -l strict
complete -c instants-merge -l follow
complete -c instants-merge -l help
complete -c instants-merge -l version
