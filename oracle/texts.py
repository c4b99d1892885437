"""The texts of declarations, keys and bodies, as the grammar wants them."""

OPERATORS = {"+", "-", "*", "/", "%", "<", ">", "<=", ">=", "=", "==", "++"}


def expression_text(expression):
    kind = expression[0]
    if kind == "int":
        return f"({expression[1]})"
    if kind == "string":
        return f'"{expression[1]}"'
    if kind == "name":
        return expression[1]
    if kind == "closure":
        formals = f"&({', '.join(expression[1])}) " if expression[1] else ""
        return formals + body_text(expression[2])
    if kind == "resend":
        return "resend(...)"
    if kind == "new":
        parts = ", ".join(f"{field} := {expression_text(part)}" for field, part in expression[2])
        return f"(object isa {expression[1]} {{ {parts} }})"
    parts = [expression_text(part) for part in expression[2]]
    if expression[1] in OPERATORS:
        return f"({parts[0]} {expression[1]} {parts[1]})"
    return f"{expression[1]}({', '.join(parts)})"


def statement_text(statement):
    text = expression_text(statement[-1])
    if statement[0] == "do":
        return text
    if statement[0] == "return":
        return f"^ {text}"
    word = "" if statement[0] == "set" else statement[0] + " "
    return f"{word}{statement[1]} := {text}"


def body_text(body):
    return f"{{ {'; '.join(map(statement_text, body))} }}"


def test_text(test):
    if test[0] == "not":
        return f"not ({test_text(test[1])})"
    if test[0] == "compare":
        return f"{test[1]} {test[2]} {test[3]}"
    return f"({test_text(test[1])} {test[0]} {test_text(test[2])})"


def start_text(start):
    if start[0] == "int":
        return str(start[1])
    return f'"{start[1]}"' if start[0] == "string" else start


def object_text(own, parents):
    return f"object {own} isa {', '.join(parents)}"


def predicate_text(own, parents, test):
    return f"predicate {own} isa {', '.join(parents)} when {test_text(test)}"


def field_text(field, specialiser, start, variable):
    return f"{'var ' if variable else ''}field {field}(@{specialiser}) := {start_text(start)}"


def method_text(message, specialisers, formals, body):
    heads = ", ".join(f"{formal or ''}@{specialiser}" for formal, specialiser in zip(formals, specialisers))
    return f"method {message}({heads}) {body_text(body)}"


def method_key_text(message, specialisers):
    return f"method {message}({', '.join('@' + specialiser for specialiser in specialisers)})"
