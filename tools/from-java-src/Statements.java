import com.sun.source.tree.*;
import java.util.ArrayList;
import java.util.List;
import java.util.Set;
import javax.lang.model.element.Element;
import javax.lang.model.element.ElementKind;
import javax.lang.model.element.ExecutableElement;
import javax.lang.model.element.TypeElement;
import javax.lang.model.element.VariableElement;

/** Statements of the sources as statements of the text. */
final class Statements {
    private final Body body;
    private List<St> hoisted = new ArrayList<>();

    Statements(Body body) {
        this.body = body;
    }

    /** Runs an action, and puts the variables of its patterns before what it made. */
    void hoisting(Runnable action) {
        List<St> saved = hoisted;
        hoisted = new ArrayList<>();
        List<St> made = body.within(action);
        body.out.addAll(hoisted);
        body.out.addAll(made);
        hoisted = saved;
    }

    /** The name of a pattern's variable, which is declared before the statement. */
    String bind(Element variable, Ty type) {
        String name = body.declareWide(variable, type);
        St declaration = new St.Let(type.text(), name, type.initial());
        declaration.at = body.place;
        hoisted.add(declaration);
        return name;
    }

    void statement(StatementTree tree) {
        hoisting(() -> lower(tree, null));
    }

    private void lower(StatementTree tree, String label) {
        switch (tree.getKind()) {
            case VARIABLE -> variable((VariableTree) tree);
            case EXPRESSION_STATEMENT -> expression(((ExpressionStatementTree) tree).getExpression());
            case BLOCK -> block((BlockTree) tree, label);
            case IF -> choice((IfTree) tree);
            case WHILE_LOOP -> whileLoop((WhileLoopTree) tree, label);
            case DO_WHILE_LOOP -> doLoop((DoWhileLoopTree) tree, label);
            case FOR_LOOP -> forLoop((ForLoopTree) tree, label);
            case ENHANCED_FOR_LOOP -> forEach((EnhancedForLoopTree) tree, label);
            case RETURN -> giveBack((ReturnTree) tree);
            case BREAK -> leave(((BreakTree) tree).getLabel(), false, tree);
            case CONTINUE -> leave(((ContinueTree) tree).getLabel(), true, tree);
            case LABELED_STATEMENT -> labeled((LabeledStatementTree) tree);
            case SWITCH -> body.switches.statement((SwitchTree) tree);
            case YIELD -> body.switches.yield_((YieldTree) tree);
            case THROW -> body.exceptions.raise((ThrowTree) tree);
            case TRY -> body.exceptions.tried((TryTree) tree);
            case EMPTY_STATEMENT -> { }
            case CLASS -> body.program.local((TypeElement) body.elementOf(tree), body);
            case ASSERT -> body.program.leftOut(body.placeOf(tree),
                "assert: Java passes over it unless it is told not to");
            default -> body.obstacle(tree, tree.getKind().toString().toLowerCase().replace('_', ' '),
                "it is not brought in");
        }
    }

    private void labeled(LabeledStatementTree tree) {
        body.place = body.placeOf(tree.getStatement());
        lower(tree.getStatement(), tree.getLabel().toString());
    }

    private void block(BlockTree tree, String label) {
        if (label != null) {
            Body.Target target = target(label, false);
            body.targets.push(target);
            target.loop.body = body.scoped(() -> tree.getStatements().forEach(body::statement));
            body.targets.pop();
            target.loop.body.add(jump(target.loop, false));
            body.emit(target.loop);
            return;
        }
        body.emit(new St.Block(body.scoped(() -> tree.getStatements().forEach(body::statement))));
    }

    // ---- variables and expressions

    private void variable(VariableTree tree) {
        Element element = body.elementOf(tree);
        ExpressionTree value = tree.getInitializer();
        Ty type = body.tyOf(element);
        if (body.shared.contains(element)) {
            if (value != null) {
                body.setLocal(body.nameOf(element), initial(value, type, null));
            }
            return;
        }
        if (value == null) {
            body.emit(new St.Let(type.text(), body.declare(element, type), type.initial()));
            return;
        }
        if (Wilds.isWild((VariableElement) element)) {
            Ex given = body.ex(value);
            Ty seen = Wilds.seen(given.type, (VariableElement) element), own = seen == null ? type : seen;
            Ex made = body.conversions.convert(given, own, value);
            body.emit(new St.Let(own.text(), body.declare(element, own), made.text));
            return;
        }
        String name = body.declare(element, type);
        int before = body.out.size();
        Ex made = initial(value, type, name);
        boolean declared = body.out.subList(before, body.out.size()).stream().anyMatch(one ->
            one instanceof St.Let let && let.name.equals(name));
        if (!declared) {
            body.emit(new St.Let(type.text(), name, made.text));
        }
    }

    /** A first value; an object or array of just the variable's type is declared under its name. */
    private Ex initial(ExpressionTree value, Ty type, String name) {
        if (value instanceof NewArrayTree array) {
            return body.creations.array(array, type, name);
        }
        boolean plain = name != null && value instanceof NewClassTree made && made.getClassBody() == null
            && body.creations.typeOf(made).same(type);
        return plain ? body.creations.creation((NewClassTree) value, name) : body.exTo(value, type);
    }

    void expression(ExpressionTree tree) {
        while (tree instanceof ParenthesizedTree bracketed) {
            tree = bracketed.getExpression();
        }
        if (tree instanceof AssignmentTree assign) {
            body.operators.assign(assign, false);
        } else if (tree instanceof CompoundAssignmentTree compound) {
            body.operators.compound(compound, false);
        } else if (tree instanceof UnaryTree unary && tree.getKind().name().endsWith("CREMENT")) {
            body.operators.unary(unary, false);
        } else if (tree instanceof MethodInvocationTree call) {
            body.calls.statement(call);
        } else {
            Ex value = body.ex(tree);
            if (value.text.startsWith("new ")) {
                body.emit(new St.Do(value.text));
            }
        }
    }

    // ---- choices and loops

    private List<St> part(StatementTree tree) {
        return body.scoped(() -> {
            if (tree instanceof BlockTree block) {
                block.getStatements().forEach(body::statement);
            } else if (tree != null) {
                body.statement(tree);
            }
        });
    }

    private void choice(IfTree tree) {
        Ex test = body.test(tree.getCondition());
        List<St> then = part(tree.getThenStatement());
        body.emit(new St.If(test, then, part(tree.getElseStatement())));
    }

    private Body.Target target(String label, boolean isLoop) {
        Body.Target target = new Body.Target();
        target.loop = new St.Loop();
        target.loop.at = body.place;
        target.label = label;
        target.isLoop = isLoop;
        return target;
    }

    private St jump(St.Loop loop, boolean goesOn) {
        St made = new St.Jump(loop, goesOn);
        made.at = body.place;
        return made;
    }

    /** The test of a loop: as its test where it needs no statement, or as the first statements of each turn. */
    private List<St> test(ExpressionTree tree, St.Loop loop) {
        if (tree == null) {
            return List.of();
        }
        Ex[] value = new Ex[1];
        List<St> before = body.within(() -> value[0] = body.test(tree));
        if (before.isEmpty()) {
            loop.test = value[0];
            return List.of();
        }
        return body.within(() -> {
            body.out.addAll(before);
            body.emit(new St.If(value[0].not(), new ArrayList<>(List.of(jump(loop, false))), new ArrayList<>()));
        });
    }

    private void turn(Body.Target target, List<St> first, StatementTree tree, Runnable next) {
        body.targets.push(target);
        List<St> turn = new ArrayList<>(first);
        turn.addAll(part(tree));
        body.targets.pop();
        turn.addAll(body.within(next));
        target.loop.body = turn;
        body.emit(target.loop);
    }

    private void whileLoop(WhileLoopTree tree, String label) {
        Body.Target target = target(label, true);
        turn(target, test(tree.getCondition(), target.loop), tree.getStatement(), () -> { });
    }

    private void doLoop(DoWhileLoopTree tree, String label) {
        Body.Target target = target(label, true);
        target.next = () -> {
            Ex value = body.test(tree.getCondition());
            if (!value.text.equals("true")) {
                body.emit(new St.If(value.not(), new ArrayList<>(List.of(jump(target.loop, false))),
                    new ArrayList<>()));
            }
        };
        turn(target, List.of(), tree.getStatement(), target.next);
    }

    private void forLoop(ForLoopTree tree, String label) {
        List<St> made = body.scoped(() -> {
            tree.getInitializer().forEach(body::statement);
            Body.Target target = target(label, true);
            List<St> before = test(tree.getCondition(), target.loop);
            List<St> next = body.within(() -> tree.getUpdate().forEach(one -> expression(one.getExpression())));
            if (next.size() == 1 && next.get(0) instanceof St.Set_ set
                && (target.loop.test != null || before.isEmpty())) {
                target.loop.next = set;
                takeFirst(target.loop);
                turn(target, before, tree.getStatement(), () -> { });
            } else {
                target.next = () -> tree.getUpdate().forEach(one -> expression(one.getExpression()));
                turn(target, before, tree.getStatement(), target.next);
            }
        });
        boolean alone = made.size() == 1;
        made.forEach(one -> one.at = one.at == null ? body.place : one.at);
        if (alone) {
            body.out.addAll(made);
        } else {
            body.emit(new St.Block(made));
        }
    }

    /** The last statement before a for becomes its first part where it can stand there. */
    private void takeFirst(St.Loop loop) {
        if (!body.out.isEmpty()) {
            St last = body.out.get(body.out.size() - 1);
            if (last instanceof St.Let || last instanceof St.Set_) {
                loop.first = last;
                body.out.remove(body.out.size() - 1);
            }
        }
    }

    private void forEach(EnhancedForLoopTree tree, String label) {
        Ex over = body.ex(tree.getExpression());
        Element variable = body.elementOf(tree.getVariable());
        Ty type = body.ty(variable.asType());
        if (over.type.is(Ty.Kind.ARRAY)) {
            overArray(tree, over, variable, type, label);
        } else if (over.type.is(Ty.Kind.CLASS)) {
            overIterator(tree, over, variable, type, label);
        } else {
            body.obstacle(tree, "for-each", "what it goes over is not known");
        }
    }

    private void overArray(EnhancedForLoopTree tree, Ex over, Element variable, Ty type, String label) {
        Body.Target target = target(label, true);
        String index = body.fresh("index");
        body.open();
        String name = body.declare(variable, type);
        body.targets.push(target);
        List<St> turn = part(tree.getStatement());
        body.targets.pop();
        body.close();
        boolean stays = over.pure && over.level == Ex.POST
            && over.reads.stream().noneMatch(St.assigned(turn)::contains);
        Ex array = stays ? over : body.spill(over);
        if (array == over && !stays) {
            String kept = body.fresh(over.type);
            body.emit(new St.Let(over.type.text(), kept, over.text));
            array = Ex.local(kept, over.type);
        }
        Ex length = Ex.active(array.at(Ex.POST) + ".length", Ex.POST, Ty.INT);
        St.Loop counting = body.creations.counting(index, length);
        target.loop.first = counting.first;
        target.loop.test = counting.test;
        target.loop.next = counting.next;
        Ex element = Ex.active(array.at(Ex.POST) + "[" + index + "]", Ex.POST, over.type.of);
        finishTurn(target, turn, name, element, type, tree);
    }

    private void finishTurn(Body.Target target, List<St> turn, String name, Ex element, Ty type,
        EnhancedForLoopTree tree) {
        List<St> all = body.within(() -> {
            Ex value = body.conversions.convert(element, type, tree);
            body.emit(new St.Let(type.text(), name, value.text));
        });
        all.addAll(turn);
        target.loop.body = all;
        body.emit(target.loop);
    }

    private void overIterator(EnhancedForLoopTree tree, Ex over, Element variable, Ty type, String label) {
        TypeElement iterable = body.world.sources.elements.getTypeElement("java.lang.Iterable");
        TypeElement iterator = body.world.sources.elements.getTypeElement("java.util.Iterator");
        if (over.type.copy.as(iterable) == null) {
            body.obstacle(tree, "for-each", over.type + " is not in the library as something to go over");
            return;
        }
        Ex walker = body.calls.invoke(over, method(iterable, "iterator"), List.of(), List.of(), tree, false);
        Ex at = Ex.local(body.fresh("iterator"), walker.type);
        Ty given = walker.type.copy.as(iterator).env.values().iterator().next();
        Ty seen = Wilds.isWild((VariableElement) variable) ? Wilds.seen(given, (VariableElement) variable) : null;
        if (seen != null) {
            declareOver(tree, at, variable, seen, label, walker, iterator);
            return;
        }
        if (body.world.isApart(given) && type.is(Ty.Kind.CLASS) && given.copy.element.equals(type.copy.element)) {
            declareOver(tree, at, variable, given, label, walker, iterator);
            return;
        }
        declareOver(tree, at, variable, type, label, walker, iterator);
    }

    private void declareOver(EnhancedForLoopTree tree, Ex at, Element variable, Ty type, String label, Ex walker,
        TypeElement iterator) {
        Body.Target target = target(label, true);
        St first = new St.Let(walker.type.text(), at.text, walker.text);
        first.at = body.place;
        Ex[] more = new Ex[1];
        List<St> before = body.within(() -> more[0] = body.calls.invoke(at, method(iterator, "hasNext"), List.of(),
            List.of(), tree, false));
        List<St> all = new ArrayList<>();
        if (before.isEmpty()) {
            target.loop.first = first;
            target.loop.test = more[0];
        } else {
            body.out.add(first);
            all.addAll(body.within(() -> {
                body.out.addAll(before);
                body.emit(new St.If(more[0].not(), new ArrayList<>(List.of(jump(target.loop, false))),
                    new ArrayList<>()));
            }));
        }
        body.open();
        String name = body.declare(variable, type);
        body.targets.push(target);
        List<St> turn = part(tree.getStatement());
        body.targets.pop();
        body.close();
        all.addAll(body.within(() -> {
            Ex element = body.calls.invoke(at, method(iterator, "next"), List.of(), List.of(), tree, false);
            body.emit(new St.Let(type.text(), name, body.conversions.convert(element, type, tree).text));
        }));
        all.addAll(turn);
        target.loop.body = all;
        body.emit(target.loop);
    }

    static ExecutableElement method(TypeElement holder, String name) {
        for (Element member : holder.getEnclosedElements()) {
            if (member.getKind() == ElementKind.METHOD && member.getSimpleName().contentEquals(name)) {
                return (ExecutableElement) member;
            }
        }
        throw new IllegalStateException(holder + " has no " + name);
    }

    // ---- leaving

    private void giveBack(ReturnTree tree) {
        Ex value = tree.getExpression() == null ? null : body.exTo(tree.getExpression(), body.result);
        body.exceptions.leaveAll(value, null);
    }

    private void leave(javax.lang.model.element.Name label, boolean goesOn, StatementTree tree) {
        for (Body.Target target : body.targets) {
            boolean fits = target.last == null && target.breaks && !target.isTry
                && (label != null ? label.contentEquals(target.label == null ? "" : target.label)
                : goesOn ? target.isLoop : target.isLoop || target.label == null);
            if (fits) {
                body.exceptions.leaveTo(target, () -> {
                    if (goesOn) {
                        target.next.run();
                    }
                    body.emit(jump(target.loop, goesOn));
                });
                return;
            }
        }
        body.obstacle(tree, "jump", "where it goes is not known");
    }
}
