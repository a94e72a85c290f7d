printf 'read\nin.exi\n--schema-id=a\001\n'
