//! Completion for bash, zsh and fish, from the table of words.

use super::table::{Choice, Word};
use super::words::WORDS;

fn names(list: impl IntoIterator<Item = &'static str>) -> String {
    list.into_iter().collect::<Vec<_>>().join(" ")
}

fn all_words() -> String {
    names(WORDS.iter().map(|word| word.name))
}

fn options(word: &Word) -> String {
    names(word.options.iter().map(|option| option.name))
}

/// What stands in the place of files, if something does.
fn instead(word: &Word) -> Option<String> {
    match word.takes.names {
        ["WORD"] => Some(all_words()),
        ["SHELL"] => Some("bash zsh fish".to_string()),
        [] => Some(String::new()),
        _ => None,
    }
}

/// The script for bash.
pub fn bash() -> String {
    let cases: String = WORDS
        .iter()
        .map(|word| {
            let instead =
                instead(word).map_or(String::new(), |words| format!(" instead=\"{words} \""));
            format!(
                "        {}) options=\"{}\"{instead} ;;\n",
                word.name,
                options(word)
            )
        })
        .collect();
    format!(
        r#"# Completion of ranthelo for bash.
_ranthelo() {{
    local now=${{COMP_WORDS[COMP_CWORD]}} options= instead=
    COMPREPLY=()
    if [ "$COMP_CWORD" -eq 1 ]; then
        COMPREPLY=($(compgen -W "{} --help --version" -- "$now"))
        return
    fi
    case ${{COMP_WORDS[1]}} in
{cases}    esac
    case $now in
        -*) COMPREPLY=($(compgen -W "$options --help" -- "$now")) ;;
        *) if [ -n "$instead" ]; then
               COMPREPLY=($(compgen -W "$instead" -- "$now"))
           else
               mapfile -t COMPREPLY < <(compgen -f -- "$now")
           fi ;;
    esac
}}
complete -o filenames -F _ranthelo ranthelo
"#,
        all_words()
    )
}

/// What the option does that all words have.
const HELP: &str = "what there is to say of the word";

/// Text between single quotes.
fn quoted(text: &str) -> String {
    format!("'{}'", text.replace('\'', "'\\''"))
}

/// The script for zsh.
pub fn zsh() -> String {
    let words: String = WORDS
        .iter()
        .map(|word| {
            format!(
                "        {}\n",
                quoted(&format!("{}:{}", word.name, word.purpose))
            )
        })
        .collect();
    let cases: String = WORDS.iter().map(zsh_case).collect();
    format!(
        "#compdef ranthelo\n# Completion of ranthelo for zsh.\n\
         _ranthelo() {{\n    local -a words_of_it\n    words_of_it=(\n{words}    )\n    \
         if (( CURRENT == 2 )); then\n        _describe word words_of_it\n        return\n    fi\n    \
         local word=${{words[2]}}\n    shift words\n    (( CURRENT-- ))\n    case $word in\n{cases}    esac\n}}\n\
         if [[ ${{funcstack[1]}} == _ranthelo ]]; then\n    _ranthelo \"$@\"\n\
         else\n    compdef _ranthelo ranthelo\nfi\n"
    )
}

fn zsh_case(word: &Word) -> String {
    let option = |option: &&Choice| {
        let does = option
            .does
            .replace('[', "(")
            .replace(']', ")")
            .replace(':', " ");
        let value = match option.value {
            Some("FILE") => ":file:_files".to_string(),
            Some(value) => format!(":{value}:"),
            None => String::new(),
        };
        format!(" {}", quoted(&format!("{}[{does}]{value}", option.name)))
    };
    let options: String = word.options.iter().map(option).collect();
    let rest = match instead(word) {
        Some(words) if words.is_empty() => String::new(),
        Some(words) => format!(" '*:word:({words})'"),
        None => " '*:file:_files'".to_string(),
    };
    let help = quoted(&format!("--help[{HELP}]"));
    format!(
        "        {}) _arguments{options} {help}{rest} ;;\n",
        word.name
    )
}

/// The script for fish.
pub fn fish() -> String {
    let mut script = "# Completion of ranthelo for fish.\ncomplete -c ranthelo -e\n".to_string();
    for word in WORDS {
        let (name, purpose) = (word.name, quoted(word.purpose));
        script +=
            &format!("complete -c ranthelo -n __fish_use_subcommand -f -a {name} -d {purpose}\n");
        let seen = format!("complete -c ranthelo -n '__fish_seen_subcommand_from {name}'");
        for option in word.options {
            let form = match option.name.strip_prefix("--") {
                Some(long) => format!("-l {long}"),
                None => format!("-s {}", &option.name[1..]),
            };
            let value = match option.value {
                Some("FILE") => " -r",
                Some(_) => " -x",
                None => "",
            };
            script += &format!("{seen} {form}{value} -d {}\n", quoted(option.does));
        }
        script += &format!("{seen} -l help -d {}\n", quoted(HELP));
        if let Some(words) = instead(word) {
            script += &format!("{seen} -f -a {}\n", quoted(&words));
        }
    }
    script
}
