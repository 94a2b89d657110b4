//! The languages: what must be installed for each, and how its program is started.
use std::env;
use std::fs;
use std::path::{Path, PathBuf};
use std::process::{Command, Stdio};

const FOLDER: &str = concat!(env!("CARGO_MANIFEST_DIR"), "/languages");
/// Where programs are built, and Guile keeps what it compiles.
const BUILT: &str = concat!(env!("CARGO_MANIFEST_DIR"), "/target/languages");
/// Where Debian puts what wasm2c's programs share.
const WASM2C: &str = "/usr/share/wabt/wasm2c";

pub const SANDBOX: &str = "wasm2c with fuel";

/// How the program of a language is made ready.
enum Start {
    /// A command, and the file that it runs.
    Script(&'static [&'static str], &'static str),
    /// decode.c.
    C,
    /// decode.wat as C, in sandbox.c.
    Sandbox,
}

/// A language.
pub struct Language {
    pub name: &'static str,
    /// What must be installed, and with which option each says its version.
    needs: &'static [(&'static str, &'static str)],
    start: Start,
    /// Its rows: with a limit of steps or without.
    pub limited: &'static [bool],
}

pub const ALL: [Language; 9] = [
    Language {
        name: "Lua 5.4",
        needs: &[("lua5.4", "-v")],
        start: Start::Script(&["lua5.4"], "decode.lua"),
        limited: &[false, true],
    },
    Language {
        name: "LuaJIT, interpreter",
        needs: &[("luajit", "-v")],
        start: Start::Script(&["luajit", "-joff"], "decode.lua"),
        limited: &[false, true],
    },
    Language {
        name: "LuaJIT, compiler",
        needs: &[("luajit", "-v")],
        start: Start::Script(&["luajit"], "decode.lua"),
        limited: &[false, true],
    },
    Language {
        name: "Python",
        needs: &[("python3", "--version")],
        start: Start::Script(&["python3"], "decode.py"),
        limited: &[false, true],
    },
    Language {
        name: "gforth",
        needs: &[("gforth-fast", "--version")],
        start: Start::Script(&["gforth-fast"], "decode.fs"),
        limited: &[false],
    },
    Language {
        name: "Guile",
        needs: &[("guile", "--version")],
        start: Start::Script(&["guile"], "decode.scm"),
        limited: &[false],
    },
    Language {
        name: "node",
        needs: &[("node", "--version")],
        start: Start::Script(&["node"], "decode.js"),
        limited: &[false],
    },
    Language {
        name: SANDBOX,
        needs: &[("wasm2c", "--version"), ("wat2wasm", "--version"), ("gcc", "--version")],
        start: Start::Sandbox,
        limited: &[true],
    },
    Language { name: "C", needs: &[("gcc", "--version")], start: Start::C, limited: &[false] },
];

/// Whether a command is somewhere in PATH.
fn is_installed(command: &str) -> bool {
    let path = env::var_os("PATH").unwrap_or_default();
    env::split_paths(&path).any(|folder| folder.join(command).is_file())
}

/// Runs a command to its end.
fn made(command: &mut Command) -> bool {
    let quiet = command.stdout(Stdio::null()).stderr(Stdio::null());
    quiet.status().is_ok_and(|status| status.success())
}

/// A program of gcc from some sources.
fn compiled(name: &str, sources: &[PathBuf]) -> Option<Command> {
    let program = Path::new(BUILT).join(name);
    let mut gcc = Command::new("gcc");
    gcc.args(["-O2", "-I", BUILT, "-I", FOLDER, "-I", WASM2C, "-o"]).arg(&program).args(sources).arg("-lm");
    made(&mut gcc).then(|| Command::new(program))
}

/// decode.wat as a module, the module as C, and that as a program.
fn sandbox() -> Option<Command> {
    let (folder, built) = (Path::new(FOLDER), Path::new(BUILT));
    let (module, in_c) = (built.join("decode.wasm"), built.join("decode.c"));
    let ready = made(Command::new("wat2wasm").arg(folder.join("decode.wat")).arg("-o").arg(&module))
        && made(Command::new("wasm2c").arg(&module).arg("-o").arg(&in_c));
    let shared = Path::new(WASM2C).join("wasm-rt-impl.c");
    ready.then(|| compiled("sandbox", &[folder.join("sandbox.c"), in_c, shared])).flatten()
}

impl Language {
    /// What starts its program, or what is not installed.
    pub fn command(&self) -> Result<Command, String> {
        if let Some((absent, _)) = self.needs.iter().find(|(command, _)| !is_installed(command)) {
            return Err((*absent).to_string());
        }
        fs::create_dir_all(BUILT).unwrap_or_else(|error| panic!("{BUILT}: {error}"));
        let command = match self.start {
            Start::Script(command, file) => {
                let mut script = Command::new(command[0]);
                script.args(&command[1..]).arg(Path::new(FOLDER).join(file)).env("XDG_CACHE_HOME", BUILT);
                Some(script)
            }
            Start::C => compiled("decode", &[Path::new(FOLDER).join("decode.c")]),
            Start::Sandbox => sandbox(),
        };
        command.ok_or_else(|| format!("{} (it cannot be built)", self.name))
    }

    /// The first line that the first command says of its version.
    pub fn version(&self) -> String {
        let (command, option) = self.needs[0];
        let said = Command::new(command).arg(option).output();
        let both = said.map(|said| [said.stdout, said.stderr].concat()).unwrap_or_default();
        let text = String::from_utf8_lossy(&both).into_owned();
        let first = text.lines().next().unwrap_or_default();
        // Copyrights stand behind two spaces or dashes.
        let first = first.split("  ").next().unwrap_or(first).split(" -- ").next().unwrap_or(first).trim();
        let bare = first.starts_with(|c: char| c.is_ascii_digit() || c == 'v');
        if bare {
            format!("{command} {first}")
        } else {
            first.to_string()
        }
    }
}
