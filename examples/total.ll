; ModuleID = 'llvm-link'
source_filename = "llvm-link"
target datalayout = "e-m:e-p270:32:32-p271:32:32-p272:64:64-i64:64-i128:128-f80:128-n8:16:32:64-S128"
target triple = "x86_64-pc-linux-gnu"

%struct.order = type { i32, i32 }

@.str = private unnamed_addr constant [5 x i8] c"6x25\00", align 1, !dbg !0
@.str.1 = private unnamed_addr constant [14 x i8] c"free delivery\00", align 1, !dbg !7

; Function Attrs: nounwind uwtable
define dso_local i32 @main() #0 !dbg !23 {
entry:
  %retval = alloca i32, align 4
  %orders = alloca [4 x %struct.order], align 16
  %number = alloca i32, align 4
  %sum = alloca i32, align 4
  store i32 0, ptr %retval, align 4
  call void @llvm.lifetime.start.p0(i64 32, ptr %orders) #3, !dbg !39
    #dbg_declare(ptr %orders, !28, !DIExpression(), !40)
  call void @llvm.lifetime.start.p0(i64 4, ptr %number) #3, !dbg !41
    #dbg_declare(ptr %number, !37, !DIExpression(), !42)
  %arraydecay = getelementptr inbounds [4 x %struct.order], ptr %orders, i64 0, i64 0, !dbg !43
  %call = call i32 @read_orders(ptr noundef @.str, ptr noundef %arraydecay), !dbg !44
  store i32 %call, ptr %number, align 4, !dbg !42, !tbaa !45
  call void @llvm.lifetime.start.p0(i64 4, ptr %sum) #3, !dbg !49
    #dbg_declare(ptr %sum, !38, !DIExpression(), !50)
  %arraydecay1 = getelementptr inbounds [4 x %struct.order], ptr %orders, i64 0, i64 0, !dbg !51
  %0 = load i32, ptr %number, align 4, !dbg !52, !tbaa !45
  %call2 = call i32 @sum_of(ptr noundef %arraydecay1, i32 noundef %0), !dbg !53
  store i32 %call2, ptr %sum, align 4, !dbg !50, !tbaa !45
  %1 = load i32, ptr %sum, align 4, !dbg !54, !tbaa !45
  %cmp = icmp sgt i32 %1, 20, !dbg !56
  br i1 %cmp, label %if.then, label %if.end, !dbg !57

if.then:                                          ; preds = %entry
  %call3 = call i32 @puts(ptr noundef @.str.1), !dbg !58
  br label %if.end, !dbg !58

if.end:                                           ; preds = %if.then, %entry
  call void @llvm.lifetime.end.p0(i64 4, ptr %sum) #3, !dbg !59
  call void @llvm.lifetime.end.p0(i64 4, ptr %number) #3, !dbg !59
  call void @llvm.lifetime.end.p0(i64 32, ptr %orders) #3, !dbg !59
  ret i32 0, !dbg !60
}

; Function Attrs: nocallback nofree nosync nounwind willreturn memory(argmem: readwrite)
declare void @llvm.lifetime.start.p0(i64 immarg, ptr nocapture) #1

declare !dbg !61 dso_local i32 @puts(ptr noundef) #2

; Function Attrs: nocallback nofree nosync nounwind willreturn memory(argmem: readwrite)
declare void @llvm.lifetime.end.p0(i64 immarg, ptr nocapture) #1

; Function Attrs: nounwind uwtable
define dso_local i32 @read_orders(ptr noundef %text, ptr noundef %orders) #0 !dbg !67 {
entry:
  %text.addr = alloca ptr, align 8
  %orders.addr = alloca ptr, align 8
  %number = alloca i32, align 4
  %count = alloca i32, align 4
  store ptr %text, ptr %text.addr, align 8, !tbaa !81
    #dbg_declare(ptr %text.addr, !76, !DIExpression(), !83)
  store ptr %orders, ptr %orders.addr, align 8, !tbaa !81
    #dbg_declare(ptr %orders.addr, !77, !DIExpression(), !84)
  call void @llvm.lifetime.start.p0(i64 4, ptr %number) #3, !dbg !85
    #dbg_declare(ptr %number, !78, !DIExpression(), !86)
  store i32 0, ptr %number, align 4, !dbg !86, !tbaa !45
  br label %while.cond, !dbg !87

while.cond:                                       ; preds = %if.end, %entry
  %0 = load ptr, ptr %text.addr, align 8, !dbg !88, !tbaa !81
  %1 = load i8, ptr %0, align 1, !dbg !89, !tbaa !90
  %tobool = icmp ne i8 %1, 0, !dbg !87
  br i1 %tobool, label %while.body, label %while.end, !dbg !87

while.body:                                       ; preds = %while.cond
  call void @llvm.lifetime.start.p0(i64 4, ptr %count) #3, !dbg !91
    #dbg_declare(ptr %count, !79, !DIExpression(), !92)
  %2 = load ptr, ptr %text.addr, align 8, !dbg !93, !tbaa !81
  %incdec.ptr = getelementptr i8, ptr %2, i32 1, !dbg !93
  store ptr %incdec.ptr, ptr %text.addr, align 8, !dbg !93, !tbaa !81
  %3 = load i8, ptr %2, align 1, !dbg !94, !tbaa !90
  %conv = sext i8 %3 to i32, !dbg !94
  %sub = sub i32 %conv, 48, !dbg !95
  %4 = load ptr, ptr %orders.addr, align 8, !dbg !96, !tbaa !81
  %5 = load i32, ptr %number, align 4, !dbg !97, !tbaa !45
  %idxprom = sext i32 %5 to i64, !dbg !96
  %arrayidx = getelementptr %struct.order, ptr %4, i64 %idxprom, !dbg !96
  %price = getelementptr inbounds %struct.order, ptr %arrayidx, i32 0, i32 0, !dbg !98
  store i32 %sub, ptr %price, align 4, !dbg !99, !tbaa !100
  %6 = load ptr, ptr %text.addr, align 8, !dbg !102, !tbaa !81
  %7 = load i8, ptr %6, align 1, !dbg !104, !tbaa !90
  %conv1 = sext i8 %7 to i32, !dbg !104
  %cmp = icmp eq i32 %conv1, 120, !dbg !105
  br i1 %cmp, label %if.then, label %if.end, !dbg !106

if.then:                                          ; preds = %while.body
  %8 = load ptr, ptr %text.addr, align 8, !dbg !107, !tbaa !81
  %arrayidx3 = getelementptr i8, ptr %8, i64 1, !dbg !107
  %9 = load i8, ptr %arrayidx3, align 1, !dbg !107, !tbaa !90
  %conv4 = sext i8 %9 to i32, !dbg !107
  %sub5 = sub i32 %conv4, 48, !dbg !109
  store i32 %sub5, ptr %count, align 4, !dbg !110, !tbaa !45
  %10 = load ptr, ptr %text.addr, align 8, !dbg !111, !tbaa !81
  %add.ptr = getelementptr i8, ptr %10, i64 2, !dbg !111
  store ptr %add.ptr, ptr %text.addr, align 8, !dbg !111, !tbaa !81
  br label %if.end, !dbg !112

if.end:                                           ; preds = %if.then, %while.body
  %11 = load i32, ptr %count, align 4, !dbg !113, !tbaa !45
  %12 = load ptr, ptr %orders.addr, align 8, !dbg !114, !tbaa !81
  %13 = load i32, ptr %number, align 4, !dbg !115, !tbaa !45
  %idxprom6 = sext i32 %13 to i64, !dbg !114
  %arrayidx7 = getelementptr %struct.order, ptr %12, i64 %idxprom6, !dbg !114
  %count8 = getelementptr inbounds %struct.order, ptr %arrayidx7, i32 0, i32 1, !dbg !116
  store i32 %11, ptr %count8, align 4, !dbg !117, !tbaa !118
  %14 = load i32, ptr %number, align 4, !dbg !119, !tbaa !45
  %inc = add i32 %14, 1, !dbg !119
  store i32 %inc, ptr %number, align 4, !dbg !119, !tbaa !45
  call void @llvm.lifetime.end.p0(i64 4, ptr %count) #3, !dbg !120
  br label %while.cond, !dbg !87, !llvm.loop !121

while.end:                                        ; preds = %while.cond
  %15 = load i32, ptr %number, align 4, !dbg !124, !tbaa !45
  call void @llvm.lifetime.end.p0(i64 4, ptr %number) #3, !dbg !125
  ret i32 %15, !dbg !126
}

; Function Attrs: nounwind uwtable
define dso_local i32 @sum_of(ptr noundef %orders, i32 noundef %number) #0 !dbg !127 {
entry:
  %orders.addr = alloca ptr, align 8
  %number.addr = alloca i32, align 4
  %sum = alloca i32, align 4
  %k = alloca i32, align 4
  store ptr %orders, ptr %orders.addr, align 8, !tbaa !81
    #dbg_declare(ptr %orders.addr, !137, !DIExpression(), !142)
  store i32 %number, ptr %number.addr, align 4, !tbaa !45
    #dbg_declare(ptr %number.addr, !138, !DIExpression(), !143)
  call void @llvm.lifetime.start.p0(i64 4, ptr %sum) #3, !dbg !144
    #dbg_declare(ptr %sum, !139, !DIExpression(), !145)
  store i32 0, ptr %sum, align 4, !dbg !145, !tbaa !45
  call void @llvm.lifetime.start.p0(i64 4, ptr %k) #3, !dbg !146
    #dbg_declare(ptr %k, !140, !DIExpression(), !147)
  store i32 0, ptr %k, align 4, !dbg !147, !tbaa !45
  br label %for.cond, !dbg !146

for.cond:                                         ; preds = %for.inc, %entry
  %0 = load i32, ptr %k, align 4, !dbg !148, !tbaa !45
  %1 = load i32, ptr %number.addr, align 4, !dbg !150, !tbaa !45
  %cmp = icmp slt i32 %0, %1, !dbg !151
  br i1 %cmp, label %for.body, label %for.cond.cleanup, !dbg !152

for.cond.cleanup:                                 ; preds = %for.cond
  call void @llvm.lifetime.end.p0(i64 4, ptr %k) #3, !dbg !153
  br label %for.end

for.body:                                         ; preds = %for.cond
  %2 = load ptr, ptr %orders.addr, align 8, !dbg !154, !tbaa !81
  %3 = load i32, ptr %k, align 4, !dbg !155, !tbaa !45
  %idxprom = sext i32 %3 to i64, !dbg !154
  %arrayidx = getelementptr %struct.order, ptr %2, i64 %idxprom, !dbg !154
  %price = getelementptr inbounds %struct.order, ptr %arrayidx, i32 0, i32 0, !dbg !156
  %4 = load i32, ptr %price, align 4, !dbg !156, !tbaa !100
  %5 = load ptr, ptr %orders.addr, align 8, !dbg !157, !tbaa !81
  %6 = load i32, ptr %k, align 4, !dbg !158, !tbaa !45
  %idxprom1 = sext i32 %6 to i64, !dbg !157
  %arrayidx2 = getelementptr %struct.order, ptr %5, i64 %idxprom1, !dbg !157
  %count = getelementptr inbounds %struct.order, ptr %arrayidx2, i32 0, i32 1, !dbg !159
  %7 = load i32, ptr %count, align 4, !dbg !159, !tbaa !118
  %mul = mul i32 %4, %7, !dbg !160
  %8 = load i32, ptr %sum, align 4, !dbg !161, !tbaa !45
  %add = add i32 %8, %mul, !dbg !161
  store i32 %add, ptr %sum, align 4, !dbg !161, !tbaa !45
  br label %for.inc, !dbg !162

for.inc:                                          ; preds = %for.body
  %9 = load i32, ptr %k, align 4, !dbg !163, !tbaa !45
  %inc = add i32 %9, 1, !dbg !163
  store i32 %inc, ptr %k, align 4, !dbg !163, !tbaa !45
  br label %for.cond, !dbg !153, !llvm.loop !164

for.end:                                          ; preds = %for.cond.cleanup
  %10 = load i32, ptr %sum, align 4, !dbg !166, !tbaa !45
  call void @llvm.lifetime.end.p0(i64 4, ptr %sum) #3, !dbg !167
  ret i32 %10, !dbg !168
}

attributes #0 = { nounwind uwtable "min-legal-vector-width"="0" "no-trapping-math"="true" "stack-protector-buffer-size"="8" "target-cpu"="x86-64" "target-features"="+cmov,+cx8,+fxsr,+mmx,+sse,+sse2,+x87" "tune-cpu"="generic" }
attributes #1 = { nocallback nofree nosync nounwind willreturn memory(argmem: readwrite) }
attributes #2 = { "no-trapping-math"="true" "stack-protector-buffer-size"="8" "target-cpu"="x86-64" "target-features"="+cmov,+cx8,+fxsr,+mmx,+sse,+sse2,+x87" "tune-cpu"="generic" }
attributes #3 = { nounwind }

!llvm.dbg.cu = !{!12, !14, !16}
!llvm.ident = !{!18, !18, !18}
!llvm.module.flags = !{!19, !20, !21, !22}

!0 = !DIGlobalVariableExpression(var: !1, expr: !DIExpression())
!1 = distinct !DIGlobalVariable(scope: null, file: !2, line: 8, type: !3, isLocal: true, isDefinition: true)
!2 = !DIFile(filename: "total.c", directory: ".", checksumkind: CSK_MD5, checksum: "d195e638af36cd47eba5a5c65fbf3808")
!3 = !DICompositeType(tag: DW_TAG_array_type, baseType: !4, size: 40, elements: !5)
!4 = !DIBasicType(name: "char", size: 8, encoding: DW_ATE_signed_char)
!5 = !{!6}
!6 = !DISubrange(count: 5)
!7 = !DIGlobalVariableExpression(var: !8, expr: !DIExpression())
!8 = distinct !DIGlobalVariable(scope: null, file: !2, line: 11, type: !9, isLocal: true, isDefinition: true)
!9 = !DICompositeType(tag: DW_TAG_array_type, baseType: !4, size: 112, elements: !10)
!10 = !{!11}
!11 = !DISubrange(count: 14)
!12 = distinct !DICompileUnit(language: DW_LANG_C11, file: !2, producer: "Debian clang version 19.1.7 (3~deb12u1)", isOptimized: true, runtimeVersion: 0, emissionKind: FullDebug, globals: !13, splitDebugInlining: false, nameTableKind: None)
!13 = !{!0, !7}
!14 = distinct !DICompileUnit(language: DW_LANG_C11, file: !15, producer: "Debian clang version 19.1.7 (3~deb12u1)", isOptimized: true, runtimeVersion: 0, emissionKind: FullDebug, splitDebugInlining: false, nameTableKind: None)
!15 = !DIFile(filename: "total_read.c", directory: ".", checksumkind: CSK_MD5, checksum: "a4498a0d5e0f7beef49e47c7fefd73b9")
!16 = distinct !DICompileUnit(language: DW_LANG_C11, file: !17, producer: "Debian clang version 19.1.7 (3~deb12u1)", isOptimized: true, runtimeVersion: 0, emissionKind: FullDebug, splitDebugInlining: false, nameTableKind: None)
!17 = !DIFile(filename: "total_sum.c", directory: ".", checksumkind: CSK_MD5, checksum: "81a7380b5348b276eef2dc49a85829e5")
!18 = !{!"Debian clang version 19.1.7 (3~deb12u1)"}
!19 = !{i32 7, !"Dwarf Version", i32 5}
!20 = !{i32 2, !"Debug Info Version", i32 3}
!21 = !{i32 1, !"wchar_size", i32 4}
!22 = !{i32 7, !"uwtable", i32 2}
!23 = distinct !DISubprogram(name: "main", scope: !2, file: !2, line: 6, type: !24, scopeLine: 6, flags: DIFlagPrototyped | DIFlagAllCallsDescribed, spFlags: DISPFlagDefinition | DISPFlagOptimized, unit: !12, retainedNodes: !27)
!24 = !DISubroutineType(types: !25)
!25 = !{!26}
!26 = !DIBasicType(name: "int", size: 32, encoding: DW_ATE_signed)
!27 = !{!28, !37, !38}
!28 = !DILocalVariable(name: "orders", scope: !23, file: !2, line: 7, type: !29)
!29 = !DICompositeType(tag: DW_TAG_array_type, baseType: !30, size: 256, elements: !35)
!30 = distinct !DICompositeType(tag: DW_TAG_structure_type, name: "order", file: !31, line: 1, size: 64, elements: !32)
!31 = !DIFile(filename: "./total.h", directory: ".", checksumkind: CSK_MD5, checksum: "52cd293e6e2a19d2d228168bcb4e8f94")
!32 = !{!33, !34}
!33 = !DIDerivedType(tag: DW_TAG_member, name: "price", scope: !30, file: !31, line: 2, baseType: !26, size: 32)
!34 = !DIDerivedType(tag: DW_TAG_member, name: "count", scope: !30, file: !31, line: 3, baseType: !26, size: 32, offset: 32)
!35 = !{!36}
!36 = !DISubrange(count: 4)
!37 = !DILocalVariable(name: "number", scope: !23, file: !2, line: 8, type: !26)
!38 = !DILocalVariable(name: "sum", scope: !23, file: !2, line: 9, type: !26)
!39 = !DILocation(line: 7, column: 3, scope: !23)
!40 = !DILocation(line: 7, column: 16, scope: !23)
!41 = !DILocation(line: 8, column: 3, scope: !23)
!42 = !DILocation(line: 8, column: 7, scope: !23)
!43 = !DILocation(line: 8, column: 36, scope: !23)
!44 = !DILocation(line: 8, column: 16, scope: !23)
!45 = !{!46, !46, i64 0}
!46 = !{!"int", !47, i64 0}
!47 = !{!"omnipotent char", !48, i64 0}
!48 = !{!"Simple C/C++ TBAA"}
!49 = !DILocation(line: 9, column: 3, scope: !23)
!50 = !DILocation(line: 9, column: 7, scope: !23)
!51 = !DILocation(line: 9, column: 20, scope: !23)
!52 = !DILocation(line: 9, column: 28, scope: !23)
!53 = !DILocation(line: 9, column: 13, scope: !23)
!54 = !DILocation(line: 10, column: 7, scope: !55)
!55 = distinct !DILexicalBlock(scope: !23, file: !2, line: 10, column: 7)
!56 = !DILocation(line: 10, column: 11, scope: !55)
!57 = !DILocation(line: 10, column: 7, scope: !23)
!58 = !DILocation(line: 11, column: 5, scope: !55)
!59 = !DILocation(line: 13, column: 1, scope: !23)
!60 = !DILocation(line: 12, column: 3, scope: !23)
!61 = !DISubprogram(name: "puts", scope: !62, file: !62, line: 661, type: !63, flags: DIFlagPrototyped, spFlags: DISPFlagOptimized)
!62 = !DIFile(filename: "/usr/include/stdio.h", directory: "", checksumkind: CSK_MD5, checksum: "b5a90985555f47bfb88eff5a8f0f5b72")
!63 = !DISubroutineType(types: !64)
!64 = !{!26, !65}
!65 = !DIDerivedType(tag: DW_TAG_pointer_type, baseType: !66, size: 64)
!66 = !DIDerivedType(tag: DW_TAG_const_type, baseType: !4)
!67 = distinct !DISubprogram(name: "read_orders", scope: !15, file: !15, line: 4, type: !68, scopeLine: 4, flags: DIFlagPrototyped | DIFlagAllCallsDescribed, spFlags: DISPFlagDefinition | DISPFlagOptimized, unit: !14, retainedNodes: !75)
!68 = !DISubroutineType(types: !69)
!69 = !{!26, !65, !70}
!70 = !DIDerivedType(tag: DW_TAG_pointer_type, baseType: !71, size: 64)
!71 = distinct !DICompositeType(tag: DW_TAG_structure_type, name: "order", file: !31, line: 1, size: 64, elements: !72)
!72 = !{!73, !74}
!73 = !DIDerivedType(tag: DW_TAG_member, name: "price", scope: !71, file: !31, line: 2, baseType: !26, size: 32)
!74 = !DIDerivedType(tag: DW_TAG_member, name: "count", scope: !71, file: !31, line: 3, baseType: !26, size: 32, offset: 32)
!75 = !{!76, !77, !78, !79}
!76 = !DILocalVariable(name: "text", arg: 1, scope: !67, file: !15, line: 4, type: !65)
!77 = !DILocalVariable(name: "orders", arg: 2, scope: !67, file: !15, line: 4, type: !70)
!78 = !DILocalVariable(name: "number", scope: !67, file: !15, line: 5, type: !26)
!79 = !DILocalVariable(name: "count", scope: !80, file: !15, line: 7, type: !26)
!80 = distinct !DILexicalBlock(scope: !67, file: !15, line: 6, column: 17)
!81 = !{!82, !82, i64 0}
!82 = !{!"any pointer", !47, i64 0}
!83 = !DILocation(line: 4, column: 29, scope: !67)
!84 = !DILocation(line: 4, column: 49, scope: !67)
!85 = !DILocation(line: 5, column: 3, scope: !67)
!86 = !DILocation(line: 5, column: 7, scope: !67)
!87 = !DILocation(line: 6, column: 3, scope: !67)
!88 = !DILocation(line: 6, column: 11, scope: !67)
!89 = !DILocation(line: 6, column: 10, scope: !67)
!90 = !{!47, !47, i64 0}
!91 = !DILocation(line: 7, column: 5, scope: !80)
!92 = !DILocation(line: 7, column: 9, scope: !80)
!93 = !DILocation(line: 8, column: 33, scope: !80)
!94 = !DILocation(line: 8, column: 28, scope: !80)
!95 = !DILocation(line: 8, column: 36, scope: !80)
!96 = !DILocation(line: 8, column: 5, scope: !80)
!97 = !DILocation(line: 8, column: 12, scope: !80)
!98 = !DILocation(line: 8, column: 20, scope: !80)
!99 = !DILocation(line: 8, column: 26, scope: !80)
!100 = !{!101, !46, i64 0}
!101 = !{!"order", !46, i64 0, !46, i64 4}
!102 = !DILocation(line: 9, column: 10, scope: !103)
!103 = distinct !DILexicalBlock(scope: !80, file: !15, line: 9, column: 9)
!104 = !DILocation(line: 9, column: 9, scope: !103)
!105 = !DILocation(line: 9, column: 15, scope: !103)
!106 = !DILocation(line: 9, column: 9, scope: !80)
!107 = !DILocation(line: 10, column: 15, scope: !108)
!108 = distinct !DILexicalBlock(scope: !103, file: !15, line: 9, column: 23)
!109 = !DILocation(line: 10, column: 23, scope: !108)
!110 = !DILocation(line: 10, column: 13, scope: !108)
!111 = !DILocation(line: 11, column: 12, scope: !108)
!112 = !DILocation(line: 12, column: 5, scope: !108)
!113 = !DILocation(line: 13, column: 28, scope: !80)
!114 = !DILocation(line: 13, column: 5, scope: !80)
!115 = !DILocation(line: 13, column: 12, scope: !80)
!116 = !DILocation(line: 13, column: 20, scope: !80)
!117 = !DILocation(line: 13, column: 26, scope: !80)
!118 = !{!101, !46, i64 4}
!119 = !DILocation(line: 14, column: 11, scope: !80)
!120 = !DILocation(line: 15, column: 3, scope: !67)
!121 = distinct !{!121, !87, !120, !122, !123}
!122 = !{!"llvm.loop.mustprogress"}
!123 = !{!"llvm.loop.unroll.disable"}
!124 = !DILocation(line: 16, column: 10, scope: !67)
!125 = !DILocation(line: 17, column: 1, scope: !67)
!126 = !DILocation(line: 16, column: 3, scope: !67)
!127 = distinct !DISubprogram(name: "sum_of", scope: !17, file: !17, line: 3, type: !128, scopeLine: 3, flags: DIFlagPrototyped | DIFlagAllCallsDescribed, spFlags: DISPFlagDefinition | DISPFlagOptimized, unit: !16, retainedNodes: !136)
!128 = !DISubroutineType(types: !129)
!129 = !{!26, !130, !26}
!130 = !DIDerivedType(tag: DW_TAG_pointer_type, baseType: !131, size: 64)
!131 = !DIDerivedType(tag: DW_TAG_const_type, baseType: !132)
!132 = distinct !DICompositeType(tag: DW_TAG_structure_type, name: "order", file: !31, line: 1, size: 64, elements: !133)
!133 = !{!134, !135}
!134 = !DIDerivedType(tag: DW_TAG_member, name: "price", scope: !132, file: !31, line: 2, baseType: !26, size: 32)
!135 = !DIDerivedType(tag: DW_TAG_member, name: "count", scope: !132, file: !31, line: 3, baseType: !26, size: 32, offset: 32)
!136 = !{!137, !138, !139, !140}
!137 = !DILocalVariable(name: "orders", arg: 1, scope: !127, file: !17, line: 3, type: !130)
!138 = !DILocalVariable(name: "number", arg: 2, scope: !127, file: !17, line: 3, type: !26)
!139 = !DILocalVariable(name: "sum", scope: !127, file: !17, line: 4, type: !26)
!140 = !DILocalVariable(name: "k", scope: !141, file: !17, line: 5, type: !26)
!141 = distinct !DILexicalBlock(scope: !127, file: !17, line: 5, column: 3)
!142 = !DILocation(line: 3, column: 32, scope: !127)
!143 = !DILocation(line: 3, column: 44, scope: !127)
!144 = !DILocation(line: 4, column: 3, scope: !127)
!145 = !DILocation(line: 4, column: 7, scope: !127)
!146 = !DILocation(line: 5, column: 8, scope: !141)
!147 = !DILocation(line: 5, column: 12, scope: !141)
!148 = !DILocation(line: 5, column: 19, scope: !149)
!149 = distinct !DILexicalBlock(scope: !141, file: !17, line: 5, column: 3)
!150 = !DILocation(line: 5, column: 23, scope: !149)
!151 = !DILocation(line: 5, column: 21, scope: !149)
!152 = !DILocation(line: 5, column: 3, scope: !141)
!153 = !DILocation(line: 5, column: 3, scope: !149)
!154 = !DILocation(line: 6, column: 12, scope: !149)
!155 = !DILocation(line: 6, column: 19, scope: !149)
!156 = !DILocation(line: 6, column: 22, scope: !149)
!157 = !DILocation(line: 6, column: 30, scope: !149)
!158 = !DILocation(line: 6, column: 37, scope: !149)
!159 = !DILocation(line: 6, column: 40, scope: !149)
!160 = !DILocation(line: 6, column: 28, scope: !149)
!161 = !DILocation(line: 6, column: 9, scope: !149)
!162 = !DILocation(line: 6, column: 5, scope: !149)
!163 = !DILocation(line: 5, column: 32, scope: !149)
!164 = distinct !{!164, !152, !165, !122, !123}
!165 = !DILocation(line: 6, column: 40, scope: !141)
!166 = !DILocation(line: 7, column: 10, scope: !127)
!167 = !DILocation(line: 8, column: 1, scope: !127)
!168 = !DILocation(line: 7, column: 3, scope: !127)
