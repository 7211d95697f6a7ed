# One display filter of Wireshark that shows what was refused, lost or unread (jq -nr): a datagram by its packet, TCP by its direction.
def side($side; $word): .[$side] | "\(if .address | contains(":") then "ipv6" else "ip" end).\($word) == \(.address) && tcp.\($word)port == \(.port)";
[inputs | select(.flow and (.kind | IN("refused", "lost", "unread")))
  | if .flow.over == "udp" then "frame.number == \(.packet)" else .flow | "(\(side("source"; "src")) && \(side("target"; "dst")))" end]
| unique | if . == [] then "frame.number == 0" else join(" || ") end
