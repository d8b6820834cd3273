# Part of translate.awk: the files that are written.

# ---- the files

function write_line(name, line) {
    print line >(stage "/new/" name)
    if (!(name in bytes)) file_names[++name_count] = name
    bytes[name] += length(line) + 1
}

function write_key(name, key, text) { if (text != "") write_line(name, key " = " text) }

function write_head(name) { write_line(name, "# Written by bixethomi-adopt. Change the sssd.conf that it was made from, and adopt that again.") }

function write_section(kind, head,    keys, count, i, is_begun) {
    count = split(KEYS[kind], keys, " ")
    is_begun = 0
    for (i = 1; i <= count; i++) {
        if (!((kind SUBSEP keys[i]) in out)) continue
        if (!is_begun) { write_line("bixethomi.conf", ""); write_line("bixethomi.conf", "[" head "]") }
        is_begun = 1
        write_line("bixethomi.conf", keys[i] " = " out[kind, keys[i]])
    }
}

function write_gateway(n,    name, is_tls) {
    name = "gateway-" n ".conf"
    is_tls = server_tls[n] || server_uri[n] ~ /^ldaps:/
    write_head(name)
    write_key(name, "server", server_name[n])
    write_key(name, "uri", server_uri[n])
    write_key(name, "start_tls", server_tls[n] ? "yes" : "no")
    if (is_tls) {
        write_key(name, "ca_file", ca_file)
        write_key(name, "ca_dir", ca_dir)
        write_key(name, "cert", tls_cert)
        write_key(name, "key", tls_key)
    }
    write_key(name, "check", is_tls ? tls_check : "demand")
    write_key(name, "bind", bind)
    if (bind == "simple") {
        write_key(name, "bind_dn", bind_dn)
        write_key(name, "password_file", folder "/gateway-" n ".password")
        write_password(n)
    }
    if (bind == "gssapi") {
        write_key(name, "keytab", keytab)
        write_key(name, "principal", principal)
    }
    write_key(name, "base", base)
    write_key(name, "filter", filter)
    write_key(name, "user_base", user_base)
    write_key(name, "group_base", group_base)
    # Staged and preserved accounts of FreeIPA have the class of users, and are none.
    if (provider == "ipa") write_key(name, "hide", "cn=provisioning," base)
}

# The password and nothing behind it. An obfuscated one is read by bixethomi-adopt.
function write_password(n,    name) {
    if (is_obfuscated) {
        if (n == 1) print option("ldap_default_authtok") >(stage "/obfuscated")
        print n >(stage "/obfuscated-for")
        return
    }
    name = "gateway-" n ".password"
    printf "%s", option("ldap_default_authtok") >(stage "/new/" name)
    file_names[++name_count] = name
    bytes[name] = length(option("ldap_default_authtok"))
}

function write_modules() {
    if (!("min_id" in bounds) && !("max_id" in bounds)) return
    write_head("modules.conf")
    if ("min_id" in bounds) write_key("modules.conf", "min_id", sprintf("%.0f", bounds["min_id"]))
    if ("max_id" in bounds) write_key("modules.conf", "max_id", sprintf("%.0f", bounds["max_id"]))
}

function write_files(    i) {
    write_head("bixethomi.conf")
    for (i = 1; i <= 3; i++) write_section(HEADS[i], HEADS[i])
    write_section("domain", "domain/" domain_name)
    for (i = 1; i <= server_count; i++) write_gateway(i)
    write_modules()
    for (i = 1; i <= name_count; i++) {
        close(stage "/new/" file_names[i])
        print file_names[i] " " bytes[file_names[i]] >(stage "/manifest")
    }
    print "end " server_count >(stage "/manifest")
}
