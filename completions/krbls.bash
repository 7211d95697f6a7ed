# bash completion for krbls
# tools/fields wrote these words:
_krbls_only() {
    local messages="AS-REQ AS-REP TGS-REQ TGS-REP AP-REQ AP-REP KRB-SAFE KRB-PRIV KRB-CRED KRB-ERROR end refused file"
    local inside="PA-TGS-REQ PA-ENC-TIMESTAMP PA-ENCRYPTED-CHALLENGE PA-PW-SALT PA-ETYPE-INFO PA-ETYPE-INFO2 PA-PAC-REQUEST PA-FOR-USER PA-FX-FAST PA-PAC-OPTIONS Ticket METHOD-DATA TYPED-DATA KERB-ERROR-DATA KERB-EXT-ERROR"
    case $1 in
        stream) echo "$messages $inside" ;;
        message) echo "$messages $inside" ;;
        keytab) echo "entry hole end refused file" ;;
        ccache) echo "cache cred config end refused file" ;;
        capture) echo "$messages $inside KPASSWD joined lost unread unanswered unreachable" ;;
        *) echo "$messages $inside entry hole cache cred config KPASSWD joined lost unread unanswered unreachable" ;;
    esac
}
_krbls_fields() {
    local messages="file kind realm client client.text client.type client.type_name client.components client.realm server server.text server.type server.type_name server.components server.realm options options.bits options.hex options.names from till rtime nonce etypes etypes_names padata padata_names addresses authdata authdata.etype authdata.etype_name authdata.kvno authdata.size tickets notes notes_names inside ticket ticket.etype ticket.etype_name ticket.kvno ticket.size enc enc.etype enc.etype_name enc.kvno enc.size auth auth.etype auth.etype_name auth.kvno auth.size size time usec seq sender sender.type sender.type_name sender.hex receiver receiver.type receiver.type_name receiver.hex cksum cksum.type cksum.type_name cksum.size code code_name ctime cusec stime susec text data methods methods_names messages place why why_name in at length refused name"
    local inside="PA-TGS-REQ.kind PA-TGS-REQ.server PA-TGS-REQ.server.text PA-TGS-REQ.server.type PA-TGS-REQ.server.type_name PA-TGS-REQ.server.components PA-TGS-REQ.server.realm PA-TGS-REQ.options PA-TGS-REQ.options.bits PA-TGS-REQ.options.hex PA-TGS-REQ.options.names PA-TGS-REQ.ticket PA-TGS-REQ.ticket.etype PA-TGS-REQ.ticket.etype_name PA-TGS-REQ.ticket.kvno PA-TGS-REQ.ticket.size PA-TGS-REQ.auth PA-TGS-REQ.auth.etype PA-TGS-REQ.auth.etype_name PA-TGS-REQ.auth.kvno PA-TGS-REQ.auth.size PA-ENC-TIMESTAMP.kind PA-ENC-TIMESTAMP.enc PA-ENC-TIMESTAMP.enc.etype PA-ENC-TIMESTAMP.enc.etype_name PA-ENC-TIMESTAMP.enc.kvno PA-ENC-TIMESTAMP.enc.size PA-ENCRYPTED-CHALLENGE.kind PA-ENCRYPTED-CHALLENGE.enc PA-ENCRYPTED-CHALLENGE.enc.etype PA-ENCRYPTED-CHALLENGE.enc.etype_name PA-ENCRYPTED-CHALLENGE.enc.kvno PA-ENCRYPTED-CHALLENGE.enc.size PA-PW-SALT.kind PA-PW-SALT.salt PA-ETYPE-INFO.kind PA-ETYPE-INFO.etype PA-ETYPE-INFO.etype_name PA-ETYPE-INFO.salt PA-ETYPE-INFO2.kind PA-ETYPE-INFO2.etype PA-ETYPE-INFO2.etype_name PA-ETYPE-INFO2.salt PA-ETYPE-INFO2.params PA-PAC-REQUEST.kind PA-PAC-REQUEST.pac PA-FOR-USER.kind PA-FOR-USER.user PA-FOR-USER.user.text PA-FOR-USER.user.type PA-FOR-USER.user.type_name PA-FOR-USER.user.components PA-FOR-USER.user.realm PA-FOR-USER.cksum PA-FOR-USER.cksum.type PA-FOR-USER.cksum.type_name PA-FOR-USER.cksum.size PA-FOR-USER.package PA-FX-FAST.kind PA-FX-FAST.armor PA-FX-FAST.server PA-FX-FAST.server.text PA-FX-FAST.server.type PA-FX-FAST.server.type_name PA-FX-FAST.server.components PA-FX-FAST.server.realm PA-FX-FAST.ticket PA-FX-FAST.ticket.etype PA-FX-FAST.ticket.etype_name PA-FX-FAST.ticket.kvno PA-FX-FAST.ticket.size PA-FX-FAST.enc PA-FX-FAST.enc.etype PA-FX-FAST.enc.etype_name PA-FX-FAST.enc.kvno PA-FX-FAST.enc.size PA-PAC-OPTIONS.kind PA-PAC-OPTIONS.options PA-PAC-OPTIONS.options.bits PA-PAC-OPTIONS.options.hex PA-PAC-OPTIONS.options.names Ticket.kind Ticket.server Ticket.server.text Ticket.server.type Ticket.server.type_name Ticket.server.components Ticket.server.realm Ticket.ticket Ticket.ticket.etype Ticket.ticket.etype_name Ticket.ticket.kvno Ticket.ticket.size METHOD-DATA.kind METHOD-DATA.methods METHOD-DATA.methods_names TYPED-DATA.kind TYPED-DATA.types TYPED-DATA.types_names KERB-ERROR-DATA.kind KERB-ERROR-DATA.type KERB-ERROR-DATA.type_name KERB-EXT-ERROR.kind KERB-EXT-ERROR.status KERB-EXT-ERROR.status_name KERB-EXT-ERROR.reserved KERB-EXT-ERROR.flags"
    case $1 in
        stream) echo "$messages $inside" ;;
        message) echo "$messages $inside line via form input" ;;
        keytab) echo "file kind principal principal.text principal.type principal.type_name principal.components principal.realm type type_name time kvno enctype enctype_name key rest size clean records zero place why why_name in at length name" ;;
        ccache) echo "file kind principal principal.text principal.type principal.type_name principal.components principal.realm type type_name offset offset.seconds offset.microseconds fields client client.text client.type client.type_name client.components client.realm server server.text server.type server.type_name server.components server.realm enctype enctype_name key auth start end renew skey flags flags.bits flags.hex flags.names state addresses authdata ticket ticket.etype ticket.etype_name ticket.kvno ticket.size ticket.refused.place ticket.refused.why ticket.refused.why_name tserver tserver.text tserver.type tserver.type_name tserver.components tserver.realm second size value credentials place why why_name in at length name" ;;
        capture) echo "$messages $inside packet t flow flow.over flow.source flow.source.address flow.source.port flow.target flow.target.address flow.target.port t_us again of after waited version ap rest octets request how by type type_name packets lost unread answered unanswered unreachable" ;;
        *) echo "$messages $inside line via form input principal principal.text principal.type principal.type_name principal.components principal.realm type type_name kvno enctype enctype_name key rest clean records zero offset offset.seconds offset.microseconds fields start end renew skey flags flags.bits flags.hex flags.names state ticket.refused.place ticket.refused.why ticket.refused.why_name tserver tserver.text tserver.type tserver.type_name tserver.components tserver.realm second value credentials packet t flow flow.over flow.source flow.source.address flow.source.port flow.target flow.target.address flow.target.port t_us again of after waited version ap octets request how by packets lost unread answered unanswered unreachable" ;;
    esac
}
# to here
_krbls() {
    local word=${COMP_WORDS[COMP_CWORD]} before=${COMP_WORDS[COMP_CWORD-1]} command=${COMP_WORDS[1]}
    local commands="list stream message items keytab ccache capture decode encode"
    if [ "$COMP_CWORD" -eq 1 ]; then
        case $word in
            -*) command=list ;;
            *)
                compopt -o filenames
                mapfile -t COMPREPLY < <(compgen -W "$commands help --help --version" -- "$word"; compgen -f -- "$word")
                return ;;
        esac
    fi
    case $before in
        --limit|--now|--port) return ;;
        --only|--fields)
            local listed=""
            [[ $word != *,* ]] || listed="${word%,*},"
            compopt -o nospace
            COMPREPLY=($(compgen -P "$listed" -W "$(_krbls_"${before#--}" "$command")" -- "${word##*,}"))
            return ;;
        --file)
            compopt -o filenames
            mapfile -t COMPREPLY < <(compgen -f -- "$word")
            return ;;
    esac
    if [ "$command" = help ]; then
        [ "$COMP_CWORD" -ne 2 ] || COMPREPLY=($(compgen -W "$commands" -- "$word"))
        return
    fi
    case $word in
        -*)
            local options="--file --help" forms="--names --json --only --fields --header --with-filename"
            case $command in
                stream) options="--limit --keep-going --strict $forms $options" ;;
                message) options="--lines --strict $forms $options" ;;
                items) options="--strict --names --json --with-filename $options" ;;
                keytab) options="$forms $options" ;;
                capture) options="--limit --port --strict $forms $options" ;;
                decode) options="--limit --strict --unframed --keep-going --port --packet $options" ;;
                encode) options="--limit --strict --unframed $options" ;;
                # without a command the words are those of list
                *) options="--now $forms $options" ;;
            esac
            [ "$COMP_CWORD" -ne 1 ] || options="$options --version"
            COMPREPLY=($(compgen -W "$options" -- "$word")) ;;
        *)
            compopt -o filenames
            mapfile -t COMPREPLY < <(compgen -f -- "$word") ;;
    esac
}
complete -F _krbls krbls
