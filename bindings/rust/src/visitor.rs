//! Walks that call a visitor.

use crate::tree::Expr;

/// What a walk calls at each expression: `Ok(true)` goes on, `Ok(false)` ends the walk, and so does an error.
pub trait ExprVisitor {
    /// Why a walk may fail.
    type Error;

    /// Is called before the expressions below this one.
    ///
    /// # Errors
    ///
    /// What the visitor says.
    fn pre_visit(&mut self, expr: &Expr) -> Result<bool, Self::Error>;

    /// Is called after the expressions below this one.
    ///
    /// # Errors
    ///
    /// What the visitor says.
    fn post_visit(&mut self, _expr: &Expr) -> Result<bool, Self::Error> {
        Ok(true)
    }
}

/// The same for a walk that changes the tree.
pub trait ExprVisitorMut {
    /// Why a walk may fail.
    type Error;

    /// Is called before the expressions below this one.
    ///
    /// # Errors
    ///
    /// What the visitor says.
    fn pre_visit(&mut self, expr: &mut Expr) -> Result<bool, Self::Error>;

    /// Is called after the expressions below this one.
    ///
    /// # Errors
    ///
    /// What the visitor says.
    fn post_visit(&mut self, _expr: &mut Expr) -> Result<bool, Self::Error> {
        Ok(true)
    }
}

/// Calls the visitor at an expression and at those below it, in the order of [`Expr::children`]. Returns whether it went to the end.
///
/// # Errors
///
/// The first error of the visitor.
pub fn walk_expr<V: ExprVisitor>(visitor: &mut V, expr: &Expr) -> Result<bool, V::Error> {
    if !visitor.pre_visit(expr)? {
        return Ok(false);
    }
    // The expressions that are not left yet, the highest first, with their children that were not come to.
    let mut above = vec![(expr, expr.children().into_iter())];
    while let Some((parent, left)) = above.last_mut() {
        if let Some(child) = left.next() {
            if !visitor.pre_visit(child)? {
                return Ok(false);
            }
            above.push((child, child.children().into_iter()));
        } else {
            if !visitor.post_visit(parent)? {
                return Ok(false);
            }
            above.pop();
        }
    }
    Ok(true)
}

/// The same with a visitor that may change each expression.
///
/// # Errors
///
/// The first error of the visitor. What was changed before stays.
pub fn walk_expr_mut<V: ExprVisitorMut>(visitor: &mut V, expr: &mut Expr) -> Result<bool, V::Error> {
    if !visitor.pre_visit(expr)? {
        return Ok(false);
    }
    let mut way = Way { root: expr, above: Vec::new(), number: 0 };
    loop {
        if way.go_down() {
            if !visitor.pre_visit(way.here())? {
                return Ok(false);
            }
        } else {
            if !visitor.post_visit(way.here())? {
                return Ok(false);
            }
            if !way.go_up() {
                return Ok(true);
            }
        }
    }
}

/// The way from the root of a tree to an expression in it. Each expression on it but the root is taken out of the one above, with the
/// number that it has there; when the way is dropped, all are put back.
struct Way<'a> {
    root: &'a mut Expr,
    above: Vec<(Expr, usize)>,
    /// The child that is next.
    number: usize,
}

impl Way<'_> {
    /// The expression at the end.
    fn here(&mut self) -> &mut Expr {
        match self.above.last_mut() {
            Some((expr, _)) => expr,
            None => self.root,
        }
    }

    /// Goes on to the next child, if there is one.
    fn go_down(&mut self) -> bool {
        let number = self.number;
        match self.here().take_child(number) {
            Some(child) => {
                self.above.push((child, number));
                self.number = 0;
                true
            }
            None => false,
        }
    }

    /// Goes back to the expression above, if there is one.
    fn go_up(&mut self) -> bool {
        match self.above.pop() {
            Some((expr, number)) => {
                self.here().put_child(number, expr);
                self.number = number + 1;
                true
            }
            None => false,
        }
    }
}

impl Drop for Way<'_> {
    fn drop(&mut self) {
        while self.go_up() {}
    }
}
