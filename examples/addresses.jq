# The addresses in the answers: [name, address] for each A and AAAA record.
def digit: if . > 57 then . - 55 else . - 48 end;
def ipv4: explode | map(digit) | [range(0; 8; 2) as $i | .[$i] * 16 + .[$i + 1] | tostring] | join(".");
def ipv6: ascii_downcase | [range(0; 32; 4) as $i | .[$i:$i + 4]] | join(":");

.answerRRs[]
| select(.CLASS == 1)
| if .TYPE == 1 and (.RDATAHEX | length) == 8 then [.NAME, (.RDATAHEX | ipv4)]
  elif .TYPE == 28 and (.RDATAHEX | length) == 32 then [.NAME, (.RDATAHEX | ipv6)]
  else empty end
