# Made by tools/completions.py: the words of instants(1), instants-lines(1), instants-merge(1) and description_check(1).

_instants()
{
    local word=${COMP_WORDS[COMP_CWORD]} before=${COMP_WORDS[COMP_CWORD - 1]} place=$COMP_CWORD words=
    # (an offset has a colon, at which bash may cut words)
    if declare -F _get_comp_words_by_ref > /dev/null; then
        _get_comp_words_by_ref -n : -c word -p before -i place
    fi
    # (a zone begins with a capital letter)
    case ${COMP_WORDS[0]##*/}:$before:$place:$word in
        description_check:*:1:*) words='v1 v2 v3 strftime' ;;
        description_check:*) ;;
        instants-merge:-f:*) words='guess rfc3339 rfc2822 iso8601 v1 v2 v3 strftime access-log go-time serilog jenkins psql git-log twitter docker-json json-time auditd haproxy apache-error python-logging postgres go-log tomcat redis suricata erlang glog java-logging mdy-am-pm windows-events dmy-dots dmy mdy ctime date-utc cloudfront apt mysql mariadb nginx-error php oracle cisco-asa openssl pacman unix-fraction unix-nanos unix-micros unix-millis unix-time klog logcat snort syslog-fraction syslog spark dmy-short ledger date' ;;
        instants-merge:-[aytl]:* | instants-merge:--since:* | instants-merge:--until:*) ;;
        instants-merge:*)
            case $word in
                -*) words='-f -a -y -t -l -j --since --until --strict --follow --help --version' ;;
                *) compopt -o default 2> /dev/null ;;
            esac
            ;;
        # (a description stands here, or what follows a name as year)
        *:v[123]:* | *:strftime:* | *:year:* | *:time:* | *:field:* | *:column:* | *:separator:* | *:label:*) ;;
        instants:*:1:*) words='+00:00' ;;
        instants:*:2:*) words='- +00:00' ;;
        instants:*:3:*) words='100 1048576' ;;
        instants:*) words='rfc3339 rfc2822 iso8601 v1 v2 v3 strftime' ;;
        *:1:* | *:-q:* | *:--count:*) words='key carry replace locate explain guess -q --count --help --version' ;;
        *:3:[[:upper:]]*) words=$(grep -v '^#' "${TZDIR:-/usr/share/zoneinfo}/zone.tab" 2> /dev/null | cut -f3) ;;
        *:[2345]:*) words='+00:00 - 64 1048576 year time field column separator label rfc3339 rfc2822 iso8601 v1 v2 v3 strftime access-log go-time serilog jenkins psql git-log twitter docker-json json-time auditd haproxy apache-error python-logging postgres go-log tomcat redis suricata erlang glog java-logging mdy-am-pm windows-events dmy-dots dmy mdy ctime date-utc cloudfront apt mysql mariadb nginx-error php oracle cisco-asa openssl pacman unix-fraction unix-nanos unix-micros unix-millis unix-time klog logcat snort syslog-fraction syslog spark dmy-short ledger date' ;;
        *) words='year time field column separator label rfc3339 rfc2822 iso8601 v1 v2 v3 strftime access-log go-time serilog jenkins psql git-log twitter docker-json json-time auditd haproxy apache-error python-logging postgres go-log tomcat redis suricata erlang glog java-logging mdy-am-pm windows-events dmy-dots dmy mdy ctime date-utc cloudfront apt mysql mariadb nginx-error php oracle cisco-asa openssl pacman unix-fraction unix-nanos unix-micros unix-millis unix-time klog logcat snort syslog-fraction syslog spark dmy-short ledger date' ;;
    esac
    mapfile -t COMPREPLY < <(compgen -W "$words" -- "$word")
    if declare -F __ltrim_colon_completions > /dev/null; then
        __ltrim_colon_completions "$word"
    fi
}

complete -F _instants instants instants-lines instants-merge description_check
