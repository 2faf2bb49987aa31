;;; tilugba-mode.el --- Portfolios, payoff code and schedule files of Tilugba -*- lexical-binding: t -*-

;; Put this file into a folder of `load-path' and (require 'tilugba-mode) into your init file. A file is known by its first statement, such
;; as `portfolio 1;'. M-x compile checks it, and C-x ` goes to what is wrong. With `eglot' (Emacs 29) or `lsp-mode' there is the
;; language server, `tilugba-desk language-server'.

;;; Code:

(require 'compile)

(defconst tilugba-words
  '("portfolio" "payoff" "amounts" "origin" "start" "party" "asset" "num" "flag" "in" "template" "contract" "code" "zero" "pay" "both"
    "scale" "after" "let" "if" "within" "then" "else" "true" "false" "obs" "neg" "not" "min" "max" "widen" "round" "div" "acc" "none"
    "add" "loop" "upto" "cut" "model" "half_even" "half_away" "floor" "ceil")
  "The reserved words of the language.")

(defvar tilugba-mode-syntax-table
  (let ((table (make-syntax-table)))
    (modify-syntax-entry ?# "<" table)
    (modify-syntax-entry ?\n ">" table)
    (modify-syntax-entry ?_ "w" table)
    table)
  "Comments go from # to the end of their line, and _ is part of a word.")

(defvar tilugba-font-lock
  (list (cons (regexp-opt tilugba-words 'words) 'font-lock-keyword-face)
        (cons "\\_<[0-9]\\{4\\}-[0-9]\\{2\\}-[0-9]\\{2\\}\\_>" 'font-lock-constant-face)
        (cons "\\_<[0-9]+\\(?:[.][0-9]+\\)?\\_>" 'font-lock-constant-face))
  "The colours of words, dates and numbers.")

;; FILE:LINE:COLUMN: KIND, as `tilugba-desk explain' and `tilugba-desk lint' tell it.
(add-to-list 'compilation-error-regexp-alist-alist
             '(tilugba "^\\([^ \n:|][^\n:|]*\\):\\([0-9]+\\):\\([0-9]+\\): " 1 2 3))
(add-to-list 'compilation-error-regexp-alist 'tilugba)

;;;###autoload
(define-derived-mode tilugba-mode prog-mode "Tilugba"
  "Portfolios, payoff code and schedule files."
  (setq-local comment-start "# ")
  (setq-local comment-end "")
  (setq-local indent-tabs-mode nil)
  (setq-local fill-column 100)
  (setq font-lock-defaults '(tilugba-font-lock))
  (when buffer-file-name
    (setq-local compile-command (concat "tilugba-desk explain check " (shell-quote-argument (file-name-nondirectory buffer-file-name))))))

;;;###autoload
(add-to-list 'magic-mode-alist
             '("\\(?:[ \t\r\n]\\|#.*\n\\)*\\(?:portfolio\\|payoff\\|schedules\\)[ \t]+[12][ \t]*;" . tilugba-mode))
;;;###autoload
(add-to-list 'auto-mode-alist '("\\.code\\'" . tilugba-mode))

(with-eval-after-load 'eglot
  (add-to-list 'eglot-server-programs '(tilugba-mode . ("tilugba-desk" "language-server"))))

(provide 'tilugba-mode)
;;; tilugba-mode.el ends here
