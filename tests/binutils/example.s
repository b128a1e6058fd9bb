// The example of docs/OPERATORS.md: eight bundles, linked at 0x4000.
	.text
	.explicit
	.global	_start
_start:
{ .mlx
	nop.m	0
	movl	r14 = 0x123456789abcdef ;;
}
{ .mii
	addl	r15 = 100000, r1
	nop.i	0
	nop.i	0 ;;
}
again:
{ .mmi
	ld8	r16 = [r14], 8 ;;
	adds	r17 = -1, r16
	nop.i	0 ;;
}
{ .mib
	cmp.eq	p6, p7 = 42, r17
	nop.i	0
	br.cloop.sptk	again ;;
}
{ .mfi
	nop.m	1
	nop.f	2
	nop.i	3 ;;
}
{ .mib
	nop.m	0
	nop.i	0
(p6)	br.cond.sptk	done
}
{ .mlx
	nop.m	0
	brl.cond.sptk	again ;;
}
done:
{ .mib
	break.m	7
	nop.i	0
	br.ret.sptk	b0 ;;
}
