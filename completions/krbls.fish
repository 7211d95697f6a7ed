# fish completion for krbls; without a command the words are those of list
# tools/fields wrote these words:
function __krbls_only
    set -l messages AS-REQ AS-REP TGS-REQ TGS-REP AP-REQ AP-REP KRB-SAFE KRB-PRIV KRB-CRED KRB-ERROR end refused file
    set -l inside PA-TGS-REQ PA-ENC-TIMESTAMP PA-ENCRYPTED-CHALLENGE PA-PW-SALT PA-ETYPE-INFO PA-ETYPE-INFO2 PA-PAC-REQUEST PA-FOR-USER PA-FX-FAST PA-PAC-OPTIONS Ticket METHOD-DATA TYPED-DATA KERB-ERROR-DATA KERB-EXT-ERROR
    switch (commandline -opc)[2]
        case stream
            string join \n $messages $inside
        case message
            string join \n $messages $inside
        case keytab
            string join \n entry hole end refused file
        case ccache
            string join \n cache cred config end refused file
        case capture
            string join \n $messages $inside KPASSWD joined lost unread unanswered unreachable
        case '*'
            string join \n $messages $inside entry hole cache cred config KPASSWD joined lost unread unanswered unreachable
    end
end
function __krbls_fields
    set -l messages file kind realm client client.text client.type client.type_name client.components client.realm server server.text server.type server.type_name server.components server.realm options options.bits options.hex options.names from till rtime nonce etypes etypes_names padata padata_names addresses authdata authdata.etype authdata.etype_name authdata.kvno authdata.size tickets notes notes_names inside ticket ticket.etype ticket.etype_name ticket.kvno ticket.size enc enc.etype enc.etype_name enc.kvno enc.size auth auth.etype auth.etype_name auth.kvno auth.size size time usec seq sender sender.type sender.type_name sender.hex receiver receiver.type receiver.type_name receiver.hex cksum cksum.type cksum.type_name cksum.size code code_name ctime cusec stime susec text data methods methods_names messages place why why_name in at length refused name
    set -l inside PA-TGS-REQ.kind PA-TGS-REQ.server PA-TGS-REQ.server.text PA-TGS-REQ.server.type PA-TGS-REQ.server.type_name PA-TGS-REQ.server.components PA-TGS-REQ.server.realm PA-TGS-REQ.options PA-TGS-REQ.options.bits PA-TGS-REQ.options.hex PA-TGS-REQ.options.names PA-TGS-REQ.ticket PA-TGS-REQ.ticket.etype PA-TGS-REQ.ticket.etype_name PA-TGS-REQ.ticket.kvno PA-TGS-REQ.ticket.size PA-TGS-REQ.auth PA-TGS-REQ.auth.etype PA-TGS-REQ.auth.etype_name PA-TGS-REQ.auth.kvno PA-TGS-REQ.auth.size PA-ENC-TIMESTAMP.kind PA-ENC-TIMESTAMP.enc PA-ENC-TIMESTAMP.enc.etype PA-ENC-TIMESTAMP.enc.etype_name PA-ENC-TIMESTAMP.enc.kvno PA-ENC-TIMESTAMP.enc.size PA-ENCRYPTED-CHALLENGE.kind PA-ENCRYPTED-CHALLENGE.enc PA-ENCRYPTED-CHALLENGE.enc.etype PA-ENCRYPTED-CHALLENGE.enc.etype_name PA-ENCRYPTED-CHALLENGE.enc.kvno PA-ENCRYPTED-CHALLENGE.enc.size PA-PW-SALT.kind PA-PW-SALT.salt PA-ETYPE-INFO.kind PA-ETYPE-INFO.etype PA-ETYPE-INFO.etype_name PA-ETYPE-INFO.salt PA-ETYPE-INFO2.kind PA-ETYPE-INFO2.etype PA-ETYPE-INFO2.etype_name PA-ETYPE-INFO2.salt PA-ETYPE-INFO2.params PA-PAC-REQUEST.kind PA-PAC-REQUEST.pac PA-FOR-USER.kind PA-FOR-USER.user PA-FOR-USER.user.text PA-FOR-USER.user.type PA-FOR-USER.user.type_name PA-FOR-USER.user.components PA-FOR-USER.user.realm PA-FOR-USER.cksum PA-FOR-USER.cksum.type PA-FOR-USER.cksum.type_name PA-FOR-USER.cksum.size PA-FOR-USER.package PA-FX-FAST.kind PA-FX-FAST.armor PA-FX-FAST.server PA-FX-FAST.server.text PA-FX-FAST.server.type PA-FX-FAST.server.type_name PA-FX-FAST.server.components PA-FX-FAST.server.realm PA-FX-FAST.ticket PA-FX-FAST.ticket.etype PA-FX-FAST.ticket.etype_name PA-FX-FAST.ticket.kvno PA-FX-FAST.ticket.size PA-FX-FAST.enc PA-FX-FAST.enc.etype PA-FX-FAST.enc.etype_name PA-FX-FAST.enc.kvno PA-FX-FAST.enc.size PA-PAC-OPTIONS.kind PA-PAC-OPTIONS.options PA-PAC-OPTIONS.options.bits PA-PAC-OPTIONS.options.hex PA-PAC-OPTIONS.options.names Ticket.kind Ticket.server Ticket.server.text Ticket.server.type Ticket.server.type_name Ticket.server.components Ticket.server.realm Ticket.ticket Ticket.ticket.etype Ticket.ticket.etype_name Ticket.ticket.kvno Ticket.ticket.size METHOD-DATA.kind METHOD-DATA.methods METHOD-DATA.methods_names TYPED-DATA.kind TYPED-DATA.types TYPED-DATA.types_names KERB-ERROR-DATA.kind KERB-ERROR-DATA.type KERB-ERROR-DATA.type_name KERB-EXT-ERROR.kind KERB-EXT-ERROR.status KERB-EXT-ERROR.status_name KERB-EXT-ERROR.reserved KERB-EXT-ERROR.flags
    switch (commandline -opc)[2]
        case stream
            string join \n $messages $inside
        case message
            string join \n $messages $inside line via form input
        case keytab
            string join \n file kind principal principal.text principal.type principal.type_name principal.components principal.realm type type_name time kvno enctype enctype_name key rest size clean records zero place why why_name in at length name
        case ccache
            string join \n file kind principal principal.text principal.type principal.type_name principal.components principal.realm type type_name offset offset.seconds offset.microseconds fields client client.text client.type client.type_name client.components client.realm server server.text server.type server.type_name server.components server.realm enctype enctype_name key auth start end renew skey flags flags.bits flags.hex flags.names state addresses authdata ticket ticket.etype ticket.etype_name ticket.kvno ticket.size ticket.refused.place ticket.refused.why ticket.refused.why_name tserver tserver.text tserver.type tserver.type_name tserver.components tserver.realm second size value credentials place why why_name in at length name
        case capture
            string join \n $messages $inside packet t flow flow.over flow.source flow.source.address flow.source.port flow.target flow.target.address flow.target.port t_us again of after waited version ap rest octets request how by type type_name packets lost unread answered unanswered unreachable
        case '*'
            string join \n $messages $inside line via form input principal principal.text principal.type principal.type_name principal.components principal.realm type type_name kvno enctype enctype_name key rest clean records zero offset offset.seconds offset.microseconds fields start end renew skey flags flags.bits flags.hex flags.names state ticket.refused.place ticket.refused.why ticket.refused.why_name tserver tserver.text tserver.type tserver.type_name tserver.components tserver.realm second value credentials packet t flow flow.over flow.source flow.source.address flow.source.port flow.target flow.target.address flow.target.port t_us again of after waited version ap octets request how by packets lost unread answered unanswered unreachable
    end
end
# to here
set -l first "test (count (commandline -opc)) -eq 1"
set -l commands list stream message items keytab ccache capture decode encode
complete -c krbls -n $first -a list -d "Each file, as its first octets say"
complete -c krbls -n $first -a stream -d "Framed messages"
complete -c krbls -n $first -a message -d "A message, a Ticket or a token, as octets or text"
complete -c krbls -n $first -a items -d "Where each field of a message is in its octets"
complete -c krbls -n $first -a keytab -d "A keytab"
complete -c krbls -n $first -a ccache -d "A credential cache"
complete -c krbls -n $first -a capture -d "The messages in a capture"
complete -c krbls -n $first -a decode -d "Messages as JSON"
complete -c krbls -n $first -a encode -d "Framed messages made of JSON"
complete -c krbls -n $first -a "help" -d "The help of a command"
complete -c krbls -f -n "__fish_seen_subcommand_from help" -a "$commands"
complete -c krbls -s h -l help -d "Print help"
complete -c krbls -n $first -s V -l version -d "Print the version"
complete -c krbls -n "not __fish_seen_subcommand_from decode encode help" -l names -d "Show the names of numbers"
complete -c krbls -n "not __fish_seen_subcommand_from decode encode help" -l json -d "Print JSON, an object a line"
complete -c krbls -n "not __fish_seen_subcommand_from items decode encode help" -l only -x -a "(__fish_complete_list , __krbls_only)" -d "Keep records of these kinds"
complete -c krbls -n "not __fish_seen_subcommand_from items decode encode help" -l fields -x -a "(__fish_complete_list , __krbls_fields)" -d "Print these members of objects"
complete -c krbls -n "not __fish_seen_subcommand_from items decode encode help" -l header -d "Print the names of --fields first"
complete -c krbls -n "not __fish_seen_subcommand_from decode encode help" -s H -l with-filename -d "Put the name of the file into each line"
complete -c krbls -n "__fish_seen_subcommand_from message" -l lines -d "An input a line"
complete -c krbls -n "not __fish_seen_subcommand_from help" -l file -r -d "Read this file first"
complete -c krbls -n "__fish_seen_subcommand_from stream capture decode encode" -l limit -x -d "Refuse longer frames"
complete -c krbls -n "__fish_seen_subcommand_from stream decode" -l keep-going -d "Go on after a refused frame"
complete -c krbls -n "__fish_seen_subcommand_from stream message items capture" -l strict -d "Refuse messages that have a note"
complete -c krbls -n "__fish_seen_subcommand_from decode encode" -l strict -d "Refuse messages that krbls stream lists with a note"
complete -c krbls -n "not __fish_seen_subcommand_from stream message items keytab capture decode encode help" -l now -x -d "The time: now, a date, or seconds since 1970"
complete -c krbls -n "__fish_seen_subcommand_from capture decode" -l port -x -d "The port of Kerberos"
complete -c krbls -n "__fish_seen_subcommand_from decode" -l packet -x -d "Messages that end in this packet of a capture"
complete -c krbls -n "__fish_seen_subcommand_from decode encode" -l unframed -d "One message, with no length before it"
