# Part of translate.awk: the servers, and how the gateways reach them.

# ---- servers

function is_loopback(host) { return host ~ /^(localhost|localhost\.localdomain|127\.[0-9.]+|::1)$/ }

function add_server(key, uri, name, needs_tls,    text) {
    if (name in server_names) return
    if (length(name) > MOST_NAME) refuse(here(key), "\"" name "\" has more than " MOST_NAME " bytes")
    server_names[name] = 1
    server_count++
    server_name[server_count] = name
    server_uri[server_count] = uri
    server_tls[server_count] = needs_tls
    text = "gateway-" server_count " " uri
    if (needs_tls) text = text " with StartTLS"
    else if (uri ~ /^ldap:/) text = text " in clear"
    if (needs_tls || uri ~ /^ldaps:/) is_tls_used = 1
    server_text[key] = joined(server_text[key], text)
    daemon_uris[key] = joined(daemon_uris[key], "ldap://" name)
}

# SSSD begins TLS before it sends a password, whatever the file says of other requests.
function wants_tls(host) {
    if (starts_tls || provider == "ipa") return 1
    if (disables_tls || has_word("cleartext")) return 0
    if (auth == "ldap" || auth == "ipa") return 1
    return (auth == "krb5" || auth == "ad") && !is_loopback(host)
}

# The name of a server in the daemon's configuration: its hosts have letters, digits, dots, dashes and underscores.
function daemon_host(text) {
    gsub(/[^A-Za-z0-9._-]/, "-", text)
    return text
}

function add_address(key, scheme, host, port,    in_uri, name, needs_tls) {
    if (port == "") port = scheme == "ldaps" ? 636 : 389
    in_uri = host ~ /:/ ? "[" host "]" : host
    name = (host ~ /:/ ? "ipv6-" daemon_host(host) : host) ":" port
    needs_tls = scheme == "ldap" && wants_tls(host)
    if (scheme == "ldap" && !needs_tls && !is_loopback(host) && !(name in server_names))
        concern("cleartext", here(key), "ldap://" in_uri ":" port " has no TLS: passwords of logins go in clear to it")
    add_server(key, scheme "://" in_uri ":" port, name, needs_tls)
}

# HOST, HOST:PORT, [ADDRESS] or [ADDRESS]:PORT: sets found_host and found_port; 0 where it has no form.
function cut_address(text,    place) {
    found_port = ""
    if (text ~ /^\[[0-9A-Fa-f:.]+\](:[0-9]+)?$/) {
        place = index(text, "]")
        found_host = substr(text, 2, place - 2)
        if (length(text) > place) found_port = substr(text, place + 2)
    } else if (text ~ /^[A-Za-z0-9._-]+(:[0-9]+)?$/) {
        place = index(text, ":")
        found_host = place == 0 ? text : substr(text, 1, place - 1)
        if (place > 0) found_port = substr(text, place + 1)
    } else return 0
    if (found_port != "") {
        if (length(found_port) > 5 || found_port < 1 || found_port > 65535) return 0
        found_port += 0
    }
    return length(found_host) <= 255
}

function add_socket(key, uri,    path) {
    path = substr(uri, 9)
    gsub(/%2[Ff]/, "/", path)
    gsub(/^\/+|\/+$/, "", path)
    add_server(key, uri, "ldapi" (path == "" ? "" : "-" daemon_host(path)) ":389", 0)
}

function add_uri(key, uri,    scheme, address) {
    scheme = tolower(substr(uri, 1, index(uri, "://") - 1))
    if (scheme == "ldapi") { add_socket(key, uri); return }
    address = substr(uri, index(uri, "://") + 3)
    sub(/\/$/, "", address)
    if ((scheme == "ldap" || scheme == "ldaps") && cut_address(address)) add_address(key, scheme, found_host, found_port)
    else refuse(here(key), "\"" uri "\" is no address of a server")
}

function add_host(key, host) {
    if (host ~ /^[0-9A-Fa-f]*:[0-9A-Fa-f:.]*$/) host = "[" host "]"
    if (cut_address(host) && found_port == "") add_address(key, "ldap", found_host, "")
    else refuse(here(key), "\"" host "\" is no name of a server")
}

# The servers that the DNS names.
function add_found(key,    service, zone, name, command, line, fields, count) {
    service = option("ldap_dns_service_name") == "" || provider == "ipa" ? "ldap" : option("ldap_dns_service_name")
    zone = option("dns_discovery_domain")
    if (zone == "") zone = provider == "ipa" ? ipa_domain : substr(host_name, index(host_name ".", ".") + 1)
    if (zone == "") zone = domain_name
    name = "_" service "._tcp." zone
    decide("ldap_dns_service_name", "honoured", "servers are those of " name)
    decide("dns_discovery_domain", "honoured", "servers are those of " name)
    if (name !~ /^[A-Za-z0-9._-]+$/) { refuse(here(key), "\"" name "\" is no name in the DNS"); return }
    command = ENVIRON["ADOPT_LOOKUP"] " " name " 2>/dev/null"
    count = 0
    while ((command | getline line) > 0) {
        if (split(line, fields, " ") != 2 || !cut_address(fields[2] ":" fields[1])) continue
        add_address(key, service == "ldaps" ? "ldaps" : "ldap", found_host, found_port)
        count++
    }
    close(command)
    looked_up = name
    if (count == 0) server_note[key] = "; no record " name
}

function add_servers(key, list,    items, count, i, is_host) {
    count = items_of(list, items)
    is_host = key ~ /^ipa_/
    for (i = 1; i <= count; i++) {
        if (items[i] == "_srv_" && key ~ /backup/) server_note[key] = "; _srv_ names no backup"
        else if (items[i] == "_srv_") add_found(key)
        else if (is_host) add_host(key, items[i])
        else add_uri(key, items[i])
    }
    if (server_text[key] != "") decide(key, "honoured", server_text[key] server_note[key])
    else if (server_note[key] != "") decide(key, "none", "no server" server_note[key])
    else decide(key, "none", "other options name these servers")
}

function translate_servers(    main, backup) {
    starts_tls = flag("ldap_id_use_start_tls")
    disables_tls = flag("ldap_auth_disable_tls_never_use_in_production")
    main = provider == "ipa" && option("ldap_uri") == "" ? "ipa_server" : "ldap_uri"
    backup = provider == "ipa" && option("ldap_backup_uri") == "" ? "ipa_backup_server" : "ldap_backup_uri"
    add_servers(main, option(main) == "" ? "_srv_" : option(main))
    if (server_count == 0)
        refuse(here(main), "no server" server_note[main])
    add_servers(backup, option(backup))
    if (server_count > MOST_SERVERS) refuse(here(main), server_count " servers: the daemon takes " MOST_SERVERS)
    out["domain", "ldap_uri"] = daemon_uris[main]
    if (daemon_uris[backup] != "") out["domain", "ldap_backup_uri"] = daemon_uris[backup]
    passed_over("ipa_server", main)
    passed_over("ipa_backup_server", backup)
    if (looked_up != "") return
    decide("ldap_dns_service_name", "none", "no server is looked up")
    decide("dns_discovery_domain", "none", "no server is looked up")
}

function passed_over(key, chosen) {
    if (key == chosen) return
    decide(key, "none", provider == "ipa" ? chosen " names the servers" : "SSSD reads it only with id_provider = ipa")
}

# ---- TLS

function translate_tls(    check) {
    if (is_flag(option("ldap_id_use_start_tls")))
        decide("ldap_id_use_start_tls", "honoured", starts_tls ? "the gateways begin TLS" : "servers are asked as " server_key() " says")
    if (is_flag(option("ldap_auth_disable_tls_never_use_in_production")))
        decide("ldap_auth_disable_tls_never_use_in_production", "honoured", "servers are asked as " server_key() " says")
    check = tolower(option("ldap_tls_reqcert"))
    tls_check = "demand"
    if (!is_tls_used) {
        pass_tls_over()
        return
    }
    if (check == "never" || check == "allow") {
        tls_check = "never"
        decide("ldap_tls_reqcert", "honoured", "no server is checked")
        concern("insecure", here("ldap_tls_reqcert"), check ": whoever answers is taken for the server, and gets the passwords")
    } else if (check == "" || check == "try" || check == "demand" || check == "hard")
        decide("ldap_tls_reqcert", "honoured", "each server's chain and name are checked")
    else refuse_value(domain, "ldap_tls_reqcert", "is none of never, allow, try, demand, hard")
    ca_file = tls_file("ldap_tls_cacert", "the gateways trust ")
    ca_dir = tls_file("ldap_tls_cacertdir", "the gateways trust those in ")
    tls_cert = tls_file("ldap_tls_cert", "the gateways show ")
    tls_key = tls_file("ldap_tls_key", "the gateways use ")
    if (ca_file != "" || ca_dir != "") return
    ca_file = provider == "ipa" ? "/etc/ipa/ca.crt" : ENVIRON["ADOPT_CA_FILE"]
    ca_dir = provider == "ipa" ? "" : ENVIRON["ADOPT_CA_DIR"]
}

function server_key() { return provider == "ipa" && option("ldap_uri") == "" ? "ipa_server" : "ldap_uri" }

function pass_tls_over(    keys, count, i) {
    count = split("ldap_tls_reqcert ldap_tls_cacert ldap_tls_cacertdir ldap_tls_cert ldap_tls_key", keys, " ")
    for (i = 1; i <= count; i++) decide(keys[i], "none", "no server is reached by TLS")
}

function tls_file(key, text) {
    if (option(key) == "") return ""
    if (option(key) !~ /^\//) refuse(here(key), "\"" option(key) "\" is no whole path")
    decide(key, "honoured", text option(key))
    return option(key)
}

# ---- the bind of the searches

function translate_bind(    mechanism, realm) {
    mechanism = toupper(option("ldap_sasl_mech"))
    if (mechanism == "" && provider == "ipa") mechanism = "GSSAPI"
    realm = option("ldap_sasl_realm")
    if (realm == "") realm = option("krb5_realm")
    if (realm == "" && provider == "ipa") realm = toupper(ipa_domain)
    bind = "none"
    if (mechanism == "GSSAPI" || mechanism == "GSS-SPNEGO") bind_by_keytab(realm)
    else if (mechanism != "") {
        decide("ldap_sasl_mech", "absent", "a gateway binds by GSSAPI or with a password")
        refuse(here("ldap_sasl_mech"), mechanism ": a gateway binds by GSSAPI or with a password")
    } else bind_with_password()
    if (bind == "gssapi") return
    decide("ldap_sasl_authid", "none", "there is no bind by GSSAPI")
    decide("ldap_sasl_realm", "none", "there is no bind by GSSAPI")
    decide("ldap_krb5_keytab", "none", "there is no bind by GSSAPI")
    decide("krb5_realm", "none", "there is no bind by GSSAPI")
}

function bind_by_keytab(realm) {
    bind = "gssapi"
    keytab = option("ldap_krb5_keytab") == "" ? "/etc/krb5.keytab" : option("ldap_krb5_keytab")
    sub(/^FILE:/, "", keytab)
    if (keytab !~ /^\//) refuse(here("ldap_krb5_keytab"), "\"" keytab "\" is no whole path")
    principal = option("ldap_sasl_authid") == "" ? "host/" host_name : option("ldap_sasl_authid")
    if (principal !~ /@/ && realm != "") principal = principal "@" realm
    decide("ldap_sasl_mech", "honoured", "the gateways bind by GSSAPI as " principal)
    decide("ldap_sasl_authid", "honoured", "the gateways bind as " principal)
    decide("ldap_sasl_realm", "honoured", "the gateways bind as " principal)
    decide("krb5_realm", "honoured", "the gateways bind as " principal)
    decide("ldap_krb5_keytab", "honoured", "the gateways bind by " keytab)
    decide("ldap_default_bind_dn", "none", "the gateways bind by GSSAPI")
    decide("ldap_default_authtok", "none", "the gateways bind by GSSAPI")
    decide("ldap_default_authtok_type", "none", "the gateways bind by GSSAPI")
}

function bind_with_password(    type) {
    type = option("ldap_default_authtok_type") == "" ? "password" : option("ldap_default_authtok_type")
    bind_dn = option("ldap_default_bind_dn")
    if (bind_dn == "" || option("ldap_default_authtok") == "") {
        decide("ldap_default_bind_dn", "none", "there is no ldap_default_authtok: searches are anonymous")
        decide("ldap_default_authtok", "none", "there is no ldap_default_bind_dn: searches are anonymous")
        decide("ldap_default_authtok_type", "none", "searches are anonymous")
        return
    }
    bind = "simple"
    is_obfuscated = type == "obfuscated_password"
    if (type != "password" && !is_obfuscated)
        refuse(here("ldap_default_authtok_type"), "\"" type "\" is neither password nor obfuscated_password")
    if (plain_dn(bind_dn) == "") refuse(here("ldap_default_bind_dn"), "\"" bind_dn "\" is no DN")
    decide("ldap_default_bind_dn", "honoured", "the gateways bind as " bind_dn)
    decide("ldap_default_authtok", "honoured", "in the gateways' password files")
    decide("ldap_default_authtok_type", "honoured", is_obfuscated ? "the password is written in clear" : "the password is written as it stands")
}
