# Part of translate.awk: what the options of the domain mean, but for its servers.

# ---- the one domain

function add_domain(name,    id) {
    id = "domain/" tolower(name)
    if (id in seen_domain || tolower(value(id, "enabled")) == "false") return
    seen_domain[id] = 1
    if (value(id, "id_provider") == "files") { is_files[id] = 1; return }
    if (!(id in spelled) && ("application/" tolower(name)) in spelled) return
    domain = id
    domain_name = name
    domain_names = joined(domain_names, name)
    domain_count++
}

function find_domain(    items, count, i) {
    domain_count = 0
    count = items_of(value("sssd", "domains"), items)
    for (i = 1; i <= count; i++) add_domain(items[i])
    for (i = 1; i <= entry_count; i++)
        if (entry_key[i] == "enabled" && entry_section[i] ~ /^domain\/[^\/]+$/ && tolower(value(entry_section[i], "enabled")) == "true")
            add_domain(substr(spelled[entry_section[i]], 8))
    if (domain_count == 0) refuse("sssd domains", "no domain is enabled")
    else if (domain_count > 1) refuse("sssd domains", domain_count " domains are enabled (" domain_names "): the daemon serves one")
    else if (!(domain in spelled)) refuse("sssd domains", "there is no section [domain/" domain_name "]")
}

function kind_of(id) {
    if (id == domain) return "domain"
    if (id in is_files) return "files"
    if (id ~ /^domain\/.*\//) return "subdomain"
    if (id ~ /^domain\//) return "other"
    if (id ~ /^(prompting|application|certmap)\//) return substr(id, 1, index(id, "/") - 1)
    if (id ~ /^(sssd|nss|pam|sudo|autofs|ssh|pac|ifp|kcm|secrets|session_recording)$/) return id
    return "unknown"
}

function translate() {
    out["sssd", "domains"] = domain_name
    decide_at("sssd", "domains", "honoured", "the domain " domain_name " is served")
    translate_services()
    translate_providers()
    if (provider != "ldap" && provider != "ipa") return
    translate_members()
    translate_access()
    translate_host()
    translate_base()
    translate_servers()
    translate_tls()
    translate_bind()
    translate_numbers()
    translate_filters()
}

function translate_services(    items, count, i, others) {
    count = items_of(value("sssd", "services"), items)
    others = ""
    for (i = 1; i <= count; i++)
        if (items[i] != "nss" && items[i] != "pam" && items[i] != "pac") others = joined(others, items[i])
    if (others != "") decide_at("sssd", "services", "absent", others ": not served")
}

# ---- providers and access

function translate_providers() {
    provider = option("id_provider")
    auth = option("auth_provider") == "" ? provider : option("auth_provider")
    if (provider != "ldap" && provider != "ipa") {
        refuse(here("id_provider"), (provider == "" ? "it is missing" : provider) ": the daemon reads ldap and ipa")
        decide("id_provider", "absent", "the daemon reads ldap and ipa")
        return
    }
    out["domain", "id_provider"] = provider
    out["domain", "auth_provider"] = "ldap"
    decide("id_provider", "honoured", "read by the daemon")
    if (auth == "ldap" || auth == "ipa") decide("auth_provider", "honoured", "a login is a bind at the directory")
    else if (auth == "krb5" || auth == "ad")
        decide("auth_provider", "honoured", "a login is a bind at the directory, without a ticket")
    else {
        decide("auth_provider", "absent", "a login is a bind at the directory")
        concern("accept-wider", here("auth_provider"), auth ": here a password of the directory lets a user in")
    }
}

# Whether the daemon reads the members of the groups.
function translate_members(    schema) {
    schema = tolower(option("ldap_schema"))
    if (schema == "") schema = provider == "ipa" ? "ipa" : "rfc2307"
    members_unread = "members named by memberUid are not read"
    is_memberless = schema == "rfc2307" || (option("ldap_group_member") != "" && tolower(option("ldap_group_member")) != "member")
    if (schema == "rfc2307") decide("ldap_schema", "absent", members_unread)
    else if (schema == "rfc2307bis" || schema == "ipa") decide("ldap_schema", "honoured", "members are read from member")
    else decide("ldap_schema", "absent", "entries are those of RFC 2307bis and FreeIPA")
    if (schema == "rfc2307" && option("ldap_schema") == "") unset("ldap_schema", "SSSD takes rfc2307: " members_unread)
}

# A line for an option that the file does not set, and whose default is another one here.
function unset(key, text) { unset_lines[++unset_count] = here(key) " (unset): not there: " text }

function translate_access(    access) {
    access = option("access_provider")
    if (access == "permit" || access == "deny" || access == "simple" || access == "ipa") {
        out["domain", "access_provider"] = access
        decide("access_provider", "honoured", "read by the daemon")
    } else if (access != "") {
        out["domain", "access_provider"] = "permit"
        decide("access_provider", "absent", "every user passes the account check")
        concern("accept-wider", here("access_provider"), access ": here every user passes the account check")
    }
    translate_filter_of_access("ldap_access_filter", access)
    translate_filter_of_access("ldap_access_order", access)
    if (access == "ldap" && option("ldap_account_expire_policy") ~ /^(shadow|rhds|ipa|389ds)$/)
        decide("ldap_account_expire_policy", "honoured", "the gateways do not show disabled and expired accounts")
    else translate_filter_of_access("ldap_account_expire_policy", access)
    translate_list("simple_allow_users", access)
    translate_list("simple_deny_users", access)
    translate_list("simple_allow_groups", access)
    translate_list("simple_deny_groups", access)
    if (access != "simple" || !is_memberless) return
    decide("simple_allow_groups", "absent", "it lets nobody in as a member: members are not read")
    decide("simple_deny_groups", "absent", "it keeps nobody out as a member: members are not read")
    if (option("simple_deny_groups") != "")
        concern("accept-wider", here("simple_deny_groups"), "members are not read: here it keeps nobody out as a member")
}

function translate_filter_of_access(key, access) {
    if (option(key) == "") return
    if (access != "ldap") { decide(key, "none", "SSSD reads it only with access_provider = ldap"); return }
    decide(key, "absent", "every user passes the account check")
    concern("accept-wider", here(key), "here every user passes the account check")
}

function translate_list(key, access) {
    if (option(key) == "") return
    if (access != "simple") { decide(key, "none", "SSSD reads it only with access_provider = simple"); return }
    out["domain", key] = names_here(option(key))
    decide(key, "honoured", "read by the daemon")
}

# The names of a list, without this domain behind an `@`. Those of other domains stay: without them a list of those who
# may come in could be empty, and let everyone in.
function names_here(list,    items, count, i, at, names) {
    count = items_of(list, items)
    names = ""
    for (i = 1; i <= count; i++) {
        at = index(items[i], "@")
        if (at > 1 && tolower(substr(items[i], at + 1)) == tolower(domain_name)) items[i] = substr(items[i], 1, at - 1)
        names = joined(names, items[i])
    }
    return names
}

function translate_filters() {
    translate_filter("filter_users")
    translate_filter("filter_groups")
}

# SSSD filters what [nss] and what the domain lists.
function translate_filter(key,    names) {
    names = names_here(value("nss", key))
    if (option(key) != "") names = joined(names, names_here(option(key)))
    if (names != "") out["nss", key] = names
    decide_at("nss", key, "honoured", "read by the daemon")
    decide(key, "honoured", "read by the daemon, in its section nss")
}

# ---- the host, the base

function translate_host() {
    if (option("ipa_hostname") != "") host_name = option("ipa_hostname")
    ipa_domain = option("ipa_domain") == "" ? domain_name : option("ipa_domain")
    if (provider == "ipa") {
        if (option("ipa_domain") != "") out["domain", "ipa_domain"] = option("ipa_domain")
        decide("ipa_domain", "honoured", "read by the daemon")
    } else decide("ipa_domain", "none", "SSSD reads it only with id_provider = ipa")
    if (provider != "ipa" && option("access_provider") != "ipa") {
        decide("ipa_hostname", "none", "SSSD reads it only with FreeIPA")
        return
    }
    if (host_name !~ /\./ || length(host_name) > 255)
        refuse(here("ipa_hostname"), "\"" host_name "\" is no host's name with a domain: set ipa_hostname")
    out["domain", "ipa_hostname"] = host_name
    decide("ipa_hostname", "honoured", "read by the daemon")
}

function base_of_domain(name,    labels, count, i, base) {
    count = split(name, labels, ".")
    base = ""
    for (i = 1; i <= count; i++)
        if (labels[i] != "") base = base (base == "" ? "" : ",") "dc=" labels[i]
    return base
}

# The parts of a DN, each trimmed: their count, or 0 where it has no form.
function parts_of(dn, parts,    count, i, letter, part) {
    split("", parts)
    count = 0
    part = ""
    for (i = 1; i <= length(dn) + 1; i++) {
        letter = substr(dn, i, 1)
        if (letter == "\\") {
            part = part substr(dn, i, 2)
            i++
        } else if (letter == "," || letter == "") {
            part = trimmed(part)
            if (part !~ /^[A-Za-z0-9.-]+ *=/) return 0
            parts[++count] = part
            part = ""
        } else part = part letter
    }
    return count
}

function plain_dn(dn,    parts, count, i, plain) {
    count = parts_of(dn, parts)
    plain = ""
    for (i = 1; i <= count; i++) plain = plain (i == 1 ? "" : ",") parts[i]
    return plain
}

function is_below(dn, top) {
    dn = "," tolower(plain_dn(dn))
    top = "," tolower(plain_dn(top))
    return length(dn) >= length(top) && substr(dn, length(dn) - length(top) + 1) == top
}

# The DN below which both stand.
function common_parent(first, second,    a, b, m, n, parent) {
    m = parts_of(first, a)
    n = parts_of(second, b)
    parent = ""
    while (m > 0 && n > 0 && tolower(a[m]) == tolower(b[n])) {
        parent = a[m] (parent == "" ? "" : ",") parent
        m--
        n--
    }
    return parent
}

# Cuts BASE?SCOPE?FILTER: found_base, found_filter, and in found_more what cannot be shown that way.
function cut_base(key,    parts, count, scope) {
    count = split(option(key), parts, "?")
    found_base = trimmed(parts[1])
    scope = count > 1 ? tolower(trimmed(parts[2])) : ""
    found_filter = count > 2 ? trimmed(parts[3]) : ""
    found_more = ""
    if (found_base != "" && plain_dn(found_base) == "") refuse(here(key), "\"" found_base "\" is no DN")
    if (found_filter != "" && found_filter !~ /^\(.*\)$/) found_filter = "(" found_filter ")"
    if (count > 3) found_more = "it has several bases"
    else if (scope == "base" || scope == "onelevel") found_more = "its scope is " scope
    else if (scope != "" && scope != "subtree") refuse(here(key), "\"" scope "\" is no scope")
}

function translate_base(    text) {
    base = ""
    user_base = own_base("ldap_user_search_base")
    group_base = own_base("ldap_group_search_base")
    cut_base("ldap_search_base")
    filter = found_filter
    if (found_base != "") {
        base = found_base
        text = "read by the daemon" (filter == "" ? "" : "; the gateways show what fits " filter)
        if (found_more == "") decide("ldap_search_base", "honoured", text)
        else if (found_more ~ /several/) {
            decide("ldap_search_base", "absent", "the daemon searches one base")
            refuse(here("ldap_search_base"), found_more ": the daemon searches one")
        } else {
            decide("ldap_search_base", "absent", "the whole subtree is searched")
            concern("accept-wider", here("ldap_search_base"), found_more ": here the whole subtree is searched")
        }
    } else if (provider == "ipa") base = base_of_domain(ipa_domain)
    else if (user_base != "" && group_base != "") base = common_parent(user_base, group_base)
    if (base == "") {
        refuse(here("ldap_search_base"), "it is missing: SSSD asks the server for it, the daemon does not")
        return
    }
    out["domain", "ldap_search_base"] = base
    check_own_base("ldap_user_search_base", user_base)
    check_own_base("ldap_group_search_base", group_base)
}

# The base of users or of groups alone, where the gateways can show it.
function own_base(key,    what) {
    cut_base(key)
    if (found_base == "") return ""
    what = key ~ /user/ ? "users" : "groups"
    if (found_more == "" && found_filter == "") {
        decide(key, "honoured", "the gateways show " what " below " found_base)
        return found_base
    }
    if (found_more == "") found_more = "it has a filter"
    decide(key, "absent", what " are those of the whole search base")
    concern("accept-wider", here(key), found_more ": here " what " are those of the whole search base")
    return ""
}

function check_own_base(key, own) {
    if (own != "" && !is_below(own, base)) refuse(here(key), own " does not stand below the search base " base)
}

# ---- numbers

# Sets the bound of the modules to the narrower of the two options.
function bound(key, name,    number) {
    number = option(key)
    if (number == "") return
    if (!is_number(number) || number + 0 > GREATEST_ID + 0) {
        refuse_value(domain, key, "is no number from 0 to " GREATEST_ID)
        return
    }
    if (number + 0 == 0) { decide(key, "none", "0 is no bound"); return }
    decide(key, "modules", "modules.conf " name)
    number += 0
    if (!(name in bounds) || (name == "min_id" ? number > bounds[name] : number < bounds[name])) bounds[name] = number
}

function translate_numbers() {
    bound("min_id", "min_id")
    bound("ldap_min_id", "min_id")
    bound("max_id", "max_id")
    bound("ldap_max_id", "max_id")
    if (!("min_id" in bounds) && option("min_id") + 0 == 0) unset("min_id", "SSSD gives numbers from 1 on, the modules give none below 1000")
}
