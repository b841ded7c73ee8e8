//! From definition files to a program: starts at the definitions that are
//! asked for, follows every name through the `use` lines of its file, and
//! reads no more files and clauses than that takes.

use crate::lexer::Fault;
use crate::library::{fixity, native, Native};
use crate::parser::{clause, Fixity, Syntax};
use crate::program::{
    Clause, Definition, DefinitionId, Expression, FieldId, Lambda, Pattern, Program,
};
use crate::rooms::Rooms;
use crate::source::{Import, RawClause, Section, Source};
use std::collections::HashMap;
use std::rc::Rc;

/// A file of definitions: `specs/FILE.antt` of a room.
#[derive(Clone, Debug, PartialEq, Eq, Hash)]
struct Module {
    room: String,
    file: String,
}

/// Rooms that are the toolchain's.
const LIBRARIES: [&str; 2] = ["std", "core"];

/// What a name stands for, outside the variables of its clause.
enum Meaning {
    Definition(Module, String),
    Constructor(String),
    Native(Native),
}

/// Compiles `names`, each as `room/File.name`, with all they use. `fields` are
/// field names that the caller will use whether or not a definition does.
pub fn compile(rooms: &Rooms, names: &[&str], fields: &[&str]) -> Result<Program, String> {
    let mut compiler = Compiler {
        rooms,
        sources: HashMap::new(),
        asked: Vec::new(),
        program: Program::default(),
    };
    for field in fields {
        compiler.field(field);
    }
    for name in names {
        let parts = name.split_once('/').and_then(|(room, rest)| {
            let (file, name) = rest.split_once('.')?;
            Some((room.to_string(), file.to_string(), name.to_string()))
        });
        let (room, file, name) = parts.ok_or_else(|| format!("{name} is no room/File.name"))?;
        compiler.definition(Module { room, file }, name);
    }
    while let Some((module, name)) = compiler.asked.get(compiler.program.definitions.len()) {
        let (module, name) = (module.clone(), name.clone());
        let definition = compiler.compile_definition(&module, &name)?;
        compiler.program.definitions.push(definition);
    }
    Ok(compiler.program)
}

struct Compiler<'r> {
    rooms: &'r Rooms,
    sources: HashMap<Module, Rc<Source>>,
    /// The definitions asked for so far, by their numbers; the program holds
    /// as many of them as are compiled.
    asked: Vec<(Module, String)>,
    program: Program,
}

/// The variables in scope, outermost frame first, and where the clause stands.
struct Scope<'c> {
    module: &'c Module,
    section: Option<&'c Section>,
    levels: Vec<Vec<String>>,
}

impl Scope<'_> {
    fn local(&self, name: &str) -> Option<Expression> {
        let mut levels = self.levels.iter().rev().enumerate();
        levels.find_map(|(up, names)| {
            let at = names.iter().rposition(|own| own == name)?;
            Some(Expression::Local { up, at })
        })
    }
}

impl Compiler<'_> {
    fn definition(&mut self, module: Module, name: String) -> DefinitionId {
        let wanted = (module, name);
        let known = self.asked.iter().position(|asked| *asked == wanted);
        known.unwrap_or_else(|| {
            self.asked.push(wanted);
            self.asked.len() - 1
        })
    }

    fn constructor(&mut self, name: String) -> usize {
        number_of(&mut self.program.constructors, &name)
    }

    fn field(&mut self, name: &str) -> FieldId {
        number_of(&mut self.program.fields, name)
    }

    fn source(&mut self, module: &Module) -> Result<Rc<Source>, String> {
        if let Some(source) = self.sources.get(module) {
            return Ok(source.clone());
        }
        let path = self.rooms.path(&module.room, &module.file);
        let show = |fault: String| format!("{}: {fault}", path.display());
        let text = self.rooms.text(&module.room, &module.file).map_err(show)?;
        let source = Source::read(&text).map_err(|fault| show(fault.to_string()))?;
        let source = Rc::new(source);
        self.sources.insert(module.clone(), source.clone());
        Ok(source)
    }

    fn meaning(&mut self, module: &Module, name: &str) -> Result<Option<Meaning>, String> {
        let source = self.source(module)?;
        match source.imports.get(name) {
            Some(import) => self.imported(import),
            None => Ok(declared(module, &source, name)),
        }
    }

    fn imported(&mut self, import: &Import) -> Result<Option<Meaning>, String> {
        let parts: Vec<&str> = import.module.iter().map(String::as_str).collect();
        let name = &import.original;
        match parts[..] {
            ["Rattle", room, ..] if LIBRARIES.contains(&room) => library(name),
            // An enumeration of the code, seen from the definitions.
            ["Rattle", room, "specs", "declared", kind, "TheVariants"] => {
                let constructor = format!("{room}/{kind}.{name}");
                Ok(Some(Meaning::Constructor(constructor)))
            }
            ["Rattle", room, "specs", file] => {
                let module = Module {
                    room: room.to_string(),
                    file: file.to_string(),
                };
                let source = self.source(&module)?;
                Ok(declared(&module, &source, name))
            }
            ["Rattle", ..] => Ok(None),
            _ => library(name),
        }
    }

    fn compile_definition(&mut self, module: &Module, name: &str) -> Result<Definition, String> {
        let source = self.source(module)?;
        let full_name = format!("{}/{}.{name}", module.room, module.file);
        let raw = source
            .definitions
            .get(name)
            .ok_or_else(|| format!("{full_name} has no clauses"))?;
        let operators = operators(&source);
        let mut clauses = Vec::new();
        for raw_clause in &raw.clauses {
            let scope = Scope {
                module,
                section: raw.section.as_ref(),
                levels: Vec::new(),
            };
            let clause = self
                .compile_clause(raw_clause, scope, &operators)
                .map_err(|message| {
                    let line = raw_clause.line;
                    format!("{full_name}: {}", Fault { line, message })
                })?;
            clauses.push(clause);
        }
        let arity = clauses[0].patterns.len();
        if clauses.iter().any(|clause| clause.patterns.len() != arity) {
            return Err(format!("{full_name}: clauses of different lengths"));
        }
        Ok(Definition {
            name: full_name,
            arity,
            clauses,
        })
    }

    fn compile_clause(
        &mut self,
        raw: &RawClause,
        mut scope: Scope<'_>,
        operators: &HashMap<String, Fixity>,
    ) -> Result<Clause, String> {
        let (left, right) = clause(&raw.tokens, &|name| operators.get(name).copied())?;
        let arguments = match left {
            Syntax::Apply(_, arguments) => arguments,
            _ => Vec::new(),
        };
        // A section's parameters come first, for each of its definitions.
        let mut variables = scope.section.map_or(Vec::new(), |s| s.parameters.clone());
        let mut patterns: Vec<Pattern> = variables.iter().map(|_| Pattern::Variable).collect();
        for argument in &arguments {
            patterns.push(self.pattern(scope.module, argument, &mut variables)?);
        }
        scope.levels.push(variables);
        let body = self.expression(&right, &mut scope)?;
        Ok(Clause { patterns, body })
    }

    /// A name that is a constructor in scope is that constructor, and any
    /// other name a variable.
    fn pattern(
        &mut self,
        module: &Module,
        syntax: &Syntax,
        variables: &mut Vec<String>,
    ) -> Result<Pattern, String> {
        if let Syntax::Number(number) = syntax {
            return Ok(Pattern::Number(*number));
        }
        let no_pattern = || format!("no pattern: {syntax:?}");
        let (name, arguments) = applied_name(syntax).ok_or_else(no_pattern)?;
        match (self.meaning(module, name)?, arguments) {
            (Some(Meaning::Native(Native::Zero)), []) => Ok(Pattern::Number(0)),
            (Some(Meaning::Native(Native::True)), []) => Ok(Pattern::Truth(true)),
            (Some(Meaning::Native(Native::False)), []) => Ok(Pattern::Truth(false)),
            (Some(Meaning::Native(Native::Empty)), []) => Ok(Pattern::Empty),
            (Some(Meaning::Native(Native::Suc)), [before]) => {
                let before = self.pattern(module, before, variables)?;
                Ok(Pattern::Suc(Box::new(before)))
            }
            (Some(Meaning::Native(Native::Cons)), [head, tail]) => {
                let head = Box::new(self.pattern(module, head, variables)?);
                let tail = Box::new(self.pattern(module, tail, variables)?);
                Ok(Pattern::Cons(head, tail))
            }
            (Some(Meaning::Constructor(constructor)), arguments) => {
                let constructor = self.constructor(constructor);
                let inside = arguments.iter();
                let inside = inside.map(|argument| self.pattern(module, argument, variables));
                let inside: Result<_, String> = inside.collect();
                Ok(Pattern::Constructor(constructor, inside?))
            }
            (_, []) => {
                variables.push(name.clone());
                Ok(Pattern::Variable)
            }
            _ => Err(no_pattern()),
        }
    }

    fn expression(&mut self, syntax: &Syntax, scope: &mut Scope<'_>) -> Result<Expression, String> {
        Ok(match syntax {
            Syntax::Number(number) => Expression::Number(*number),
            Syntax::Text(text) => Expression::Text(text.clone()),
            Syntax::Name(name) => self.name(name, scope)?,
            Syntax::Apply(head, arguments) => {
                let head = self.expression(head, scope)?;
                let mut compiled = Vec::new();
                for argument in arguments {
                    compiled.push(self.expression(argument, scope)?);
                }
                apply(head, compiled)
            }
            Syntax::Lambda(variables, body) => {
                scope.levels.push(variables.clone());
                let body = Box::new(self.expression(body, scope)?);
                scope.levels.pop();
                let arity = variables.len();
                Expression::Lambda(Lambda { arity, body })
            }
            Syntax::Record(fields) => {
                let mut compiled = Vec::new();
                for (name, value) in fields {
                    compiled.push((self.field(name), self.expression(value, scope)?));
                }
                Expression::Record(compiled)
            }
            Syntax::Project(from, field) => {
                let from = Box::new(self.expression(from, scope)?);
                Expression::Project(from, self.field(field))
            }
        })
    }

    fn name(&mut self, name: &str, scope: &Scope<'_>) -> Result<Expression, String> {
        if let Some(local) = scope.local(name) {
            return Ok(local);
        }
        match self.meaning(scope.module, name)? {
            Some(Meaning::Native(native)) => Ok(Expression::Native(native)),
            Some(Meaning::Constructor(name)) => Ok(Expression::Constructor(self.constructor(name))),
            Some(Meaning::Definition(module, name)) => {
                let source = self.source(&module)?;
                let section = source.definitions[&name].section.as_ref();
                // Inside a section a sibling is used without the section's
                // parameters: it stands for itself at these.
                let sibling = module == *scope.module && section == scope.section;
                let shared = section.filter(|_| sibling);
                let count = shared.map_or(0, |s| s.parameters.len());
                let up = scope.levels.len() - 1;
                let parameters = (0..count).map(|at| Expression::Local { up, at });
                let id = self.definition(module, name);
                Ok(apply(Expression::Definition(id), parameters.collect()))
            }
            None => Err(format!(
                "{name} is not in scope, or no library function known here"
            )),
        }
    }
}

fn declared(module: &Module, source: &Source, name: &str) -> Option<Meaning> {
    if source.definitions.contains_key(name) {
        Some(Meaning::Definition(module.clone(), name.to_string()))
    } else if source.constructors.iter().any(|own| own == name) {
        let constructor = format!("{}/{}.{name}", module.room, module.file);
        Some(Meaning::Constructor(constructor))
    } else {
        None
    }
}

/// A name and what it is applied to, if that is what is written.
fn applied_name(syntax: &Syntax) -> Option<(&String, &[Syntax])> {
    match syntax {
        Syntax::Name(name) => Some((name, &[])),
        Syntax::Apply(head, arguments) => match &**head {
            Syntax::Name(name) => Some((name, arguments)),
            _ => None,
        },
        _ => None,
    }
}

fn library(name: &str) -> Result<Option<Meaning>, String> {
    Ok(native(name).map(Meaning::Native))
}

/// The operators that a file uses, under the names it gives them.
fn operators(source: &Source) -> HashMap<String, Fixity> {
    let operators = source
        .imports
        .iter()
        .filter_map(|(name, import)| Some((name.clone(), fixity(&import.original)?)));
    operators.collect()
}

/// An application of an application is one application.
fn apply(head: Expression, mut arguments: Vec<Expression>) -> Expression {
    if arguments.is_empty() {
        return head;
    }
    match head {
        Expression::Apply(head, mut first) => {
            first.append(&mut arguments);
            Expression::Apply(head, first)
        }
        head => Expression::Apply(Box::new(head), arguments),
    }
}

fn number_of(names: &mut Vec<String>, name: &str) -> usize {
    let known = names.iter().position(|own| own == name);
    known.unwrap_or_else(|| {
        names.push(name.to_string());
        names.len() - 1
    })
}
