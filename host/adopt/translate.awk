# translate.awk OPTIONS SSSD.CONF FRAGMENT..: translates an sssd.conf into the files that this host needs.
# domain.awk, servers.awk and files.awk are parts of it.
#
# bixethomi-adopt runs it. The environment has
#   ADOPT_STAGE    the folder of the run: new/ takes the files, lines the report, reasons what is refused, manifest the
#                  name and the bytes of each file, obfuscated a password that is still to be read
#   ADOPT_FOLDER   where the files will stand
#   ADOPT_WORDS    the words that were given, with a space around each
#   ADOPT_HOST     the host's name
#   ADOPT_LOOKUP   the program that looks a service record up: prints `PORT TARGET` lines in their order
#   ADOPT_CA_FILE, ADOPT_CA_DIR   what ldap.conf names as certificates of authorities
# Status 0: the files are there; 1: refused. Written for every awk of POSIX.

BEGIN {
    stage = ENVIRON["ADOPT_STAGE"]
    folder = ENVIRON["ADOPT_FOLDER"]
    host_name = ENVIRON["ADOPT_HOST"]
    MOST_SERVERS = 64
    # The name of a server is that of a Unix socket.
    MOST_NAME = 70
    GREATEST = "4294967295"
    GREATEST_ID = "4294967294"
    NO_FLAG = "is neither TRUE nor FALSE"
    split("sssd nss pam", HEADS, " ")
    KEYS["sssd"] = "domains journal_limit"
    KEYS["nss"] = "entry_negative_timeout entry_cache_nowait_percentage filter_users filter_groups pwfield"
    KEYS["pam"] = "offline_credentials_expiration offline_failed_login_attempts offline_failed_login_delay"
    KEYS["domain"] = "id_provider auth_provider access_provider entry_cache_timeout entry_cache_user_timeout" \
        " entry_cache_group_timeout cache_credentials cached_auth_timeout offline_timeout ldap_uri ldap_backup_uri" \
        " ipa_domain ipa_hostname ldap_search_base ldap_group_nesting_level ipa_hbac_refresh simple_allow_users" \
        " simple_deny_users simple_allow_groups simple_deny_groups"
}

FNR == 1 { file_count++ }
file_count == 1 { read_row($0); next }
{ read_line($0) }

END {
    if (!refused) find_domain()
    if (!refused) {
        translate()
        report()
    }
    if (!refused) write_files()
    write_reasons()
    exit refused
}

# ---- texts

function trimmed(text) {
    sub(/^[ \t\r]+/, "", text)
    sub(/[ \t\r]+$/, "", text)
    return text
}

# The items of a list, trimmed and none empty: their count.
function items_of(list, items,    raw, count, i, item) {
    split("", items)
    count = 0
    for (i = 1; i <= split(list, raw, ","); i++) {
        item = trimmed(raw[i])
        if (item != "") items[++count] = item
    }
    return count
}

function joined(list, item) { return list == "" ? item : list ", " item }

function has_word(word) { return index(ENVIRON["ADOPT_WORDS"], " --" word " ") > 0 }

function is_number(text) { return text ~ /^[0-9]+$/ && length(text) <= 10 && text + 0 <= GREATEST + 0 }

# ---- the table of options

function read_row(line,    fields, key) {
    if (line ~ /^#/ || line == "") return
    split(line, fields, "|")
    key = fields[1] SUBSEP fields[2]
    if (fields[2] ~ /\*$/) {
        pattern_count[fields[1]]++
        patterns[fields[1], pattern_count[fields[1]]] = fields[2]
    }
    class_of[key] = fields[3]
    rule_of[key] = fields[4]
    text_of[key] = fields[5]
}

# The row of an option: its own, that of any section, or the longest beginning that fits.
function row_of(kind, option,    i, beginning, best) {
    if ((kind SUBSEP option) in class_of) return kind SUBSEP option
    if (("*" SUBSEP option) in class_of) return "*" SUBSEP option
    best = ""
    for (i = 1; i <= pattern_count[kind]; i++) {
        beginning = substr(patterns[kind, i], 1, length(patterns[kind, i]) - 1)
        if (substr(option, 1, length(beginning)) == beginning && length(patterns[kind, i]) > length(best)) best = patterns[kind, i]
    }
    return best == "" ? "" : kind SUBSEP best
}

# ---- the file

function bad_line(why) { refuse(FILENAME ":" FNR, why) }

function read_line(line,    place, key) {
    line = trimmed(line)
    if (FNR == 1) {
        sub(/^\357\273\277/, "", line)
        section = ""
    }
    if (line == "" || line ~ /^[#;]/) return
    if (line ~ /^\[/) {
        if (line !~ /^\[[^]]+\]$/) { bad_line("no section has this form"); return }
        read_section(trimmed(substr(line, 2, length(line) - 2)))
        return
    }
    place = index(line, "=")
    key = tolower(trimmed(substr(line, 1, place - 1)))
    if (place == 0 || key == "") { bad_line("no option: KEY = VALUE is wanted, and a value ends with its line"); return }
    if (section == "") { bad_line("an option stands in front of the first section"); return }
    if (!((section SUBSEP key) in value_of)) {
        entry_count++
        entry_section[entry_count] = section
        entry_key[entry_count] = key
    }
    value_of[section, key] = trimmed(substr(line, place + 1))
}

# SSSD compares the names of sections and options without case.
function read_section(name) {
    section = tolower(name)
    if (!(section in spelled)) spelled[section] = name
}

function value(id, key) { return (id SUBSEP key) in value_of ? value_of[id, key] : "" }

function option(key) { return value(domain, key) }

# ---- what is found out

function place_of(id, key) { return spelled[id] " " key }

function here(key) { return place_of(domain, key) }

function reason(line) { reasons[++reason_count] = line }

function refuse(place, why) {
    refused = 1
    reason("refused: " place ": " why)
}

# A value that its option cannot have.
function refuse_value(id, key, why) {
    refuse(place_of(id, key), "\"" value(id, key) "\" " why)
    decide_at(id, key, "none", "it has no form")
}

# What only a word of the command line lets pass.
function concern(word, place, why) {
    if (has_word(word)) reason("accepted: " place ": " why)
    else refuse(place, why "; --" word " accepts it")
}

# The outcome of an option of the domain, where it has a value.
function decide(key, class, text) { decide_at(domain, key, class, text) }

function decide_at(id, key, class, text) {
    if (value(id, key) == "") return
    decided[id, key] = class
    decided_text[id, key] = text
}

function is_flag(text) { return tolower(text) == "true" || tolower(text) == "false" }

function flag(key) {
    if (option(key) != "" && !is_flag(option(key))) refuse_value(domain, key, NO_FLAG)
    return tolower(option(key)) == "true"
}

# ---- the other options, and the report

function is_listed(word, list) { return index(" " list " ", " " word " ") > 0 }

# What the daemon takes as the value of an option.
function check_value(id, key, rule,    parts, text) {
    split(rule, parts, " ")
    text = value(id, key)
    if (parts[1] == "number" && !(is_number(text) && text + 0 >= parts[2] + 0 && text + 0 <= parts[3] + 0))
        refuse_value(id, key, "is no number from " parts[2] " to " parts[3])
    if (parts[1] == "flag" && !is_flag(text)) refuse_value(id, key, NO_FLAG)
    if (parts[1] == "length" && length(text) > parts[3]) refuse_value(id, key, "has more than " parts[3] " bytes")
}

function decide_by_table(id, key,    kind, row, class) {
    kind = kind_of(id)
    row = row_of(kind, key)
    if (value(id, key) == "" && !(kind == "nss" && key == "pwfield")) {
        decided[id, key] = "none"
        decided_text[id, key] = "it has no value"
        return
    }
    if (row == "") {
        decided[id, key] = "absent"
        decided_text[id, key] = "no option of SSSD is known by this name"
        return
    }
    class = class_of[row]
    decided[id, key] = class
    decided_text[id, key] = text_of[row]
    if (class == "honoured" && rule_of[row] != "code") {
        decided_text[id, key] = "read by the daemon"
        out[kind, key] = value(id, key)
        check_value(id, key, rule_of[row])
    } else if ((class == "absent" || class == "wider") && is_listed(tolower(value(id, key)), rule_of[row])) {
        decided[id, key] = "none"
        decided_text[id, key] = "this host does so anyway"
    } else if (class == "wider") {
        decided[id, key] = "absent"
        concern("accept-wider", place_of(id, key), text_of[row])
    } else if (class == "honoured") {
        decided[id, key] = "none"
        decided_text[id, key] = "it was not looked at"
    }
}

function report(    i, id, key, names) {
    names["honoured"] = "honoured"
    names["modules"] = "given to the modules"
    names["none"] = "without effect"
    names["absent"] = "not there"
    for (i = 1; i <= entry_count; i++) {
        id = entry_section[i]
        key = entry_key[i]
        if (!((id SUBSEP key) in decided)) decide_by_table(id, key)
        print place_of(id, key) ": " names[decided[id, key]] ": " decided_text[id, key] >(stage "/lines")
    }
    for (i = 1; i <= unset_count; i++) print unset_lines[i] >(stage "/lines")
    close(stage "/lines")
}

function write_reasons(    i) {
    for (i = 1; i <= reason_count; i++) print reasons[i] >(stage "/reasons")
    close(stage "/reasons")
}
